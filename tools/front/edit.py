"""`dirac cut`, `dirac join` and `dirac wrap`: parts of streams, streams of parts, Matroska; without recoding."""
import argparse
import io
import re

from .info import Survey
from .outputs import MATROSKA, check_apart, check_stream_name, stream_output
from .processes import pieces
from .program import refusal, start
from .refusal import Refusal
from .sources import open_stream, tell

CUT = """examples:
  dirac cut clip.drc --from 2 --to 4 -o part.drc      from point 2 up to, and without, point 4
  dirac cut clip.drc --from 3.5s -o rest.drc          from the last point at or before that time

`dirac info --points` lists the points: the intra pictures, counted from 0, with their times.
"""
JOIN = """examples:
  dirac join one.drc two.drc -o both.drc

Sequences with equal headers become one; others stand behind one another, as they were.
"""

WRAP = """examples:
  dirac wrap clip.drc -o clip.mkv
  mkvmerge -o both.mkv clip.mkv sound.flac      with sound beside it

Each picture gets the time at which it is shown; other players find none in a bare stream. The stream stays as it is,
byte for byte. Wants mkvmerge (Debian: apt-get install mkvtoolnix). All commands that write a stream take such a name.
"""


def add_to(commands):
    form = argparse.RawDescriptionHelpFormatter
    text = "take a part out of a stream, from one point to another, without recoding"
    cut = commands.add_parser(
        "cut", help=text, description="Cuts a stream at its points.", epilog=CUT, formatter_class=form
    )
    cut.add_argument("stream", metavar="X.drc", help="a stream or a container with one; - is standard input")
    cut.add_argument("-o", metavar="Y.drc", required=True, help="the part to write; - is standard output")
    cut.add_argument("--from", dest="begin", metavar="P", help="a point, or a time as 3.5s; the beginning if not given")
    cut.add_argument("--to", dest="end", metavar="P", help="a point, or a time as 7s; the end if not given")
    cut.set_defaults(run=run_cut)
    text = "put streams together to one, without recoding"
    join = commands.add_parser("join", help=text, description="Joins streams.", epilog=JOIN, formatter_class=form)
    join.add_argument("streams", metavar="X.drc", nargs="+", help="streams or containers with one, in order")
    join.add_argument("-o", metavar="Y.drc", required=True, help="the stream to write; - is standard output")
    join.set_defaults(run=run_join)
    text = "put a stream into Matroska, where other players find its times"
    wrap = commands.add_parser("wrap", help=text, description="Wraps a stream.", epilog=WRAP, formatter_class=form)
    wrap.add_argument("stream", metavar="X.drc", help="a stream or a container with one; - is standard input")
    wrap.add_argument("-o", metavar="X.mkv", required=True, help="the Matroska file to write")
    wrap.set_defaults(run=run_wrap)


def times_of(survey):
    """The time of each point in seconds, in their order."""
    begin = 0.0
    for told in survey.sequences:
        for point in told.points:
            after = (point.number - told.points[0].number) % 2**32
            yield begin + float(after / told.header.pictures_a_second())
        begin += told.seconds()


def point_of(text, data, name):
    """The number of a point that is given as such or by a time."""
    if re.fullmatch("[0-9]+", text):
        return int(text)
    if not re.fullmatch(r"[0-9]+(\.[0-9]+)?s", text):
        raise Refusal(f"cut: {name} takes a point as 2, or a time as 3.5s, not {text}", 2)
    found = [
        number for number, time in enumerate(times_of(Survey(io.BytesIO(data)))) if time <= float(text[:-1]) + 1e-9
    ]
    if not found:
        raise Refusal("cut: the stream has no point; `dirac info` tells more")
    tell(f"{name} {text} is point {found[-1]}")
    return found[-1]


def run_program(words, fed, name, path):
    """Runs the program and keeps what it writes where it is done."""
    pipe = start(words, fed)
    with stream_output(path) as output:
        for piece in pieces(pipe):
            output.write(piece)
        problem = refusal(name, *pipe.finish())
        if problem is not None:
            raise problem
        output.keep()
    return 0


def run_cut(words):
    check_stream_name(words.o)
    check_apart(words.o, [words.stream])
    stream = open_stream(words.stream)
    data = stream.read()
    given = ["cut"]
    for name, text in (("from", words.begin), ("to", words.end)):
        if text is not None:
            given.append(f"--{name}={point_of(text, data, f'--{name}')}")
    return run_program(given, pieces(io.BytesIO(data)), stream.name, words.o)


def run_join(words):
    check_stream_name(words.o)
    check_apart(words.o, words.streams)
    if words.streams.count("-") > 1:
        raise Refusal("join: standard input can be one of the streams, not two", 2)
    streams = [open_stream(path) for path in words.streams]
    fed = (piece for stream in streams for piece in pieces(stream))
    return run_program(["join"], fed, " and ".join(stream.name for stream in streams), words.o)


def run_wrap(words):
    if not words.o.lower().endswith(MATROSKA):
        raise Refusal(f"wrap: {words.o} isn't named as Matroska is: give -o a name that ends in {MATROSKA}", 2)
    check_stream_name(words.o)
    check_apart(words.o, [words.stream])
    stream = open_stream(words.stream)
    with stream_output(words.o) as output:
        for piece in pieces(stream):
            output.write(piece)
        output.keep()
    return 0
