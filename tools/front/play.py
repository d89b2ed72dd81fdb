"""`dirac play`: shows a stream in a window."""
import argparse
import os
import shutil
import sys

from .decode import pass_on
from .decoding import PLAIN_HELP, Decoding, of_one_kind
from .formats import FULL_RANGE, colour_filter, matrix_of
from .refusal import Refusal
from .sinks import CommandSink
from .sources import open_stream, tell

EPILOG = """examples:
  dirac play moving.drc
  dirac play moving.mkv --player mpv

The proved program decodes, and ffplay or mpv, whichever is there, shows what comes out, at the stream's rate, in its
range, colours and pixel aspect. Fields are woven to frames.
"""
PLAYERS = {"ffplay": ["-v", "error", "-autoexit", "-f", "yuv4mpegpipe"], "mpv": ["--really-quiet"]}


def add_to(commands):
    parser = commands.add_parser(
        "play",
        help="show a stream in a window, by ffplay or mpv",
        description="Decodes a Dirac stream and shows it in a window.",
        epilog=EPILOG,
        formatter_class=argparse.RawDescriptionHelpFormatter,
    )
    parser.add_argument("stream", metavar="X.drc", help="a stream or a container with one; - is standard input")
    parser.add_argument("--player", choices=PLAYERS, help="the player, where there are both")
    parser.add_argument("--plain", action="store_true", help=PLAIN_HELP)
    parser.set_defaults(run=run)


def player_for(player):
    """The player that is said, or the one that is there."""
    found = [each for each in ([player] if player else PLAYERS) if shutil.which(each)]
    if not found:
        wanted = player or "ffplay or mpv"
        raise Refusal(f"play wants {wanted}, which isn't there; `dirac decode X.drc -o X.y4m` makes what others play")
    return found[0]


def command_for(player, name, video):
    """The player's words; it reads y4m from standard input, which doesn't say the colours' matrix."""
    if player == "ffplay":
        given = ["-window_title", name, *colour_filter(video)]
        if video.signal == FULL_RANGE and matrix_of(video) == "709":
            # ffplay shows the full range by BT.601 whatever the matrix is
            given[-1] += ",scale=out_range=limited"
    else:
        matrix = matrix_of(video)
        given = [f"--title={name}"] + ([f"--vf=format=colormatrix=bt.{matrix}"] if matrix else [])
    return [player, *PLAYERS[player], *given, "-"]


def has_screen():
    """Whether the players find a screen, as far as that can be known."""
    return sys.platform != "linux" or any(os.environ.get(name) for name in ("DISPLAY", "WAYLAND_DISPLAY"))


def run(words):
    player = player_for(words.player)
    if not has_screen():
        tell(f"no screen is there (DISPLAY isn't set): {player} may show nothing, and say nothing of it")
    decoding = Decoding(open_stream(words.stream), words.plain)
    video, pictures = of_one_kind(decoding.pictures())
    try:
        if video is not None:
            pass_on(CommandSink(player, command_for(player, words.stream, video), video), pictures)
    except BrokenPipeError:
        # the window was closed
        decoding.pipe.stop()
        return 0
    problem = decoding.finish()
    if problem is not None:
        raise problem
    if video is None:
        raise Refusal(f"{decoding.name}: the stream has no picture")
    return 0
