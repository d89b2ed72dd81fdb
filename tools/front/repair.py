"""`dirac repair`: a stream that decodes, of a damaged, cut or unusual file."""
import argparse
import io
import re

from .mend import first_header, for_players, mend
from .outputs import check_apart, check_stream_name, stream_output
from .processes import pieces
from .program import FAULT, start
from .refusal import Refusal
from .resync import Lost, Search
from .sources import open_stream, tell
from .units import PICTURES, UnitWriter

EPILOG = """examples:
  dirac repair damaged.drc -o whole.drc
  dirac repair archive.ogg -o whole.drc                   out of Ogg, with its first sequence header
  dirac repair lost-its-front.drc -o whole.drc --header other.drc
  dirac repair clip.drc -o playable.drc --for-players     for ffmpeg, VLC, mpv and all others with libavcodec

Units are found by their prefix where offsets are wrong or missing, and get right ones. A file that begins with pictures
gets the first sequence header in front, one that stops or changes gets an end unit. Left out, and told with their place
and the reason: bytes that are no whole unit, pictures that refer to one that isn't there, units of no kind of the
profile. A whole stream comes out as it went in. Pictures of Schroedinger 1.0.0 to 1.0.7 are spelt by the standard.

--for-players spells zero residuals as bands of length 0 and retires references that nothing refers to any more. It
changes no picture that this codec shows. What libavcodec shows otherwise for other reasons (vectors beyond the edges of
a picture at precision 1 to 3, wavelet 6, weights, fields) stays as it is: docs/FORMAT.md, Interoperation.
"""
LINES_SHOWN = 20


def add_to(commands):
    parser = commands.add_parser(
        "repair",
        help="make a whole stream of a damaged, cut or old one, or one that players show right",
        description="Makes of a damaged, cut or old Dirac stream one that decodes.",
        epilog=EPILOG,
        formatter_class=argparse.RawDescriptionHelpFormatter,
    )
    parser.add_argument("stream", metavar="FILE", help="a stream, damaged or not, or a container; - is standard input")
    parser.add_argument("-o", metavar="X.drc", required=True, help="the stream to write; - is standard output")
    parser.add_argument("--header", metavar="OTHER", help="a stream whose sequence header is to stand in front")
    parser.add_argument("--old", action="store_true", help="take the pictures for those of a Schroedinger before 1.0.8")
    parser.add_argument("--decode", action="store_true", help="leave out what the program can't decode, too")
    parser.add_argument("--for-players", action="store_true", help="spell it so that players show the same pictures")
    parser.add_argument("--all", action="store_true", help=f"tell of all that is left out, not of {LINES_SHOWN} alone")
    parser.set_defaults(run=run)


def written(units):
    """The units as a stream."""
    target = io.BytesIO()
    writer = UnitWriter(target)
    for unit in units:
        writer.write(unit.code, unit.payload)
    return target.getvalue()


def first_refused(units):
    """The unit that the program refuses and why, or None."""
    stream = written(units)
    pipe = start(["decode"], (stream[at : at + (1 << 20)] for at in range(0, len(stream), 1 << 20)))
    for _ in pieces(pipe):
        pass
    status, text = pipe.finish()
    fault = re.search(r"fault unit=(\d+) at=\d+ cause=(\w+)", text)
    if status == 0:
        return None
    if status != FAULT or fault is None or int(fault[1]) >= len(units):
        raise Refusal(f"repair: the program says {text.strip().splitlines()[-1:] or status}")
    return units[int(fault[1])], fault[2]


def mended(found, header, words):
    """The units of the stream and the report; with --decode those that the program takes."""
    refused = {}
    while True:
        units, report = mend(found, header, refused, words.old)
        bad = first_refused(units) if words.decode else None
        if bad is None:
            return units, report
        unit, cause = bad
        if unit.source is None or unit.source in refused:
            raise Refusal(f"repair: the program refuses the sequence header: {cause}")
        refused[unit.source] = f"the program refuses it: {cause}"


def header_of(path):
    """The payload of another stream's first sequence header."""
    found = [unit for unit in Search(open_stream(path).read()).units() if not isinstance(unit, Lost)]
    header = first_header(found)
    if header is None:
        raise Refusal(f"{path} has no sequence header that can be read")
    return header


def tell_report(report, units, is_same, is_whole):
    shown = report.lines if is_whole else report.lines[:LINES_SHOWN]
    for line in shown:
        tell(line)
    if len(shown) < len(report.lines):
        tell(f"and {len(report.lines) - len(shown)} more such lines: --all")
    for what, count in report.counts.items():
        tell(f"{what}: {count}")
    if not report.lines and not report.counts:
        tell("nothing had to be mended" if is_same else "only offsets had to be put right")
    tell(f"pictures written: {sum(unit.code in PICTURES for unit in units)}")


def run(words):
    check_stream_name(words.o)
    check_apart(words.o, [words.stream])
    data = open_stream(words.stream).read()
    found = list(Search(data).units())
    header = header_of(words.header) if words.header else None
    units, report = mended(found, header, words)
    if not units:
        if any(not isinstance(unit, Lost) for unit in found):
            raise Refusal(f"{words.stream}: no sequence header can be read; --header takes one from another stream")
        raise Refusal(f"{words.stream}: no unit anywhere: this is no Dirac stream")
    if words.for_players:
        units = for_players(units, report)
    stream = written(units)
    with stream_output(words.o) as output:
        output.write(stream)
        output.keep()
    tell_report(report, units, stream == data, words.all)
    return 0
