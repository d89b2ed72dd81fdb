#!/usr/bin/env python3
"""Shows the first pictures of a Dirac stream as one PNG. Needs Python alone: no toolchain, no build, no other program.

look.py [STREAM [PNG]]      STREAM is moving.drc beside this script where none is given; PNG its name with .png at the
                            end, in the current folder

At most four pictures are decoded, by the plain decoder in bench/reference. It is slow: up to a second for each
picture of 176 by 144, some fifteen for one of 720 by 576. Where the stream has a fault before them, nothing is written,
and the status is 4. The colours are those of the range and the matrix that the stream says.
"""
import pathlib
import sys

sys.dont_write_bytecode = True
sys.path.insert(0, str(pathlib.Path(__file__).resolve().parent.parent / "tools"))

from front import png
from front.outputs import Output
from front.plain import decoder
from front.refusal import Refusal
from front.sequence import read_header

MOST_PICTURES = 4
FAULT = 4


def fail(text, status=1):
    print(f"look.py: {text}", file=sys.stderr)
    sys.exit(status)


def read_stream(path):
    try:
        data = pathlib.Path(path).read_bytes()
    except OSError as error:
        fail(f"{path}: {error.strerror}")
    if data[:4] != b"BBCD":
        fail(f"{path}: not a Dirac stream: it doesn't begin with BBCD")
    return data


def first_pictures(data, path):
    """The first pictures in order of delivery, each with the payload of its sequence header."""
    taken = decoder.Decoder()
    shown = []
    fault = None
    try:
        for unit in decoder.read_units(data):
            header = taken.header
            try:
                taken.take(unit)
            except decoder.Fault as inner:
                place = unit.place + decoder.PARSE_INFO_LENGTH + inner.place
                raise decoder.StreamFault(unit.index, place, inner.cause) from None
            shown += [(raw, header) for raw in taken.delivery.delivered[len(shown) :]]
            if len(shown) >= MOST_PICTURES:
                break
    except decoder.StreamFault as outer:
        fault = outer
    if fault is not None:
        fail(f"{path}: fault unit={fault.unit} at={fault.place} cause={fault.cause}", FAULT)
    if not shown:
        fail(f"{path}: the stream has no picture")
    return shown[:MOST_PICTURES]


def main():
    if len(sys.argv) > 3 or any(word.startswith("-") for word in sys.argv[1:]):
        fail("usage: look.py [STREAM [PNG]]", 2)
    beside = pathlib.Path(__file__).resolve().parent / "moving.drc"
    stream = sys.argv[1] if len(sys.argv) > 1 else str(beside)
    target = sys.argv[2] if len(sys.argv) > 2 else pathlib.Path(stream).stem + ".png"
    pictures = first_pictures(read_stream(stream), stream)
    videos = [read_header(header).pictures() for _, header in pictures]
    rows = [list(png.rgb_rows(raw, video)) for (raw, _), video in zip(pictures, videos)]
    try:
        with Output(str(target)) as output:
            output.write(png.spell(png.sheet(rows)))
            output.keep()
    except Refusal as problem:
        fail(problem.text)
    count = "1 picture" if len(pictures) == 1 else f"{len(pictures)} pictures"
    print(f"{target}: {count} of {videos[0].width} by {videos[0].height}")


if __name__ == "__main__":
    main()
