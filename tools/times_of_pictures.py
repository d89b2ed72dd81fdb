#!/usr/bin/env python3
"""Writes when each picture of a stream is shown, in the order of the stream's bytes, for mkvmerge.

times_of_pictures.py RATE < CLIP.drc > TIMES

RATE is pictures a second as 25 or 30000:1001. A line a picture, in milliseconds, as mkvmerge takes them: a picture is
coded behind those that it refers to, which may be shown after it, and without these times mkvmerge shows each picture
when its turn in the file comes.

mkvmerge -o CLIP.mkv --timestamps 0:TIMES CLIP.drc
"""
import pathlib
import re
import sys

sys.dont_write_bytecode = True
sys.path.insert(0, str(pathlib.Path(__file__).resolve().parent.parent / "bench" / "reference"))

import decoder


def fail(text):
    sys.exit(f"times_of_pictures.py: {text}")


def places_of(numbers):
    """For each picture of a sequence, how many are shown before it; they are shown by their distance from the first."""
    distances = [(number - numbers[0] + 2**31) % 2**32 for number in numbers]
    order = sorted(range(len(numbers)), key=lambda coded: (distances[coded], coded))
    places = [0] * len(numbers)
    for place, coded in enumerate(order):
        places[coded] = place
    return places


def whole_units(data):
    """The units of a stream, which may want its end unit."""
    try:
        yield from decoder.read_units(data)
    except decoder.StreamFault as fault:
        if fault.cause != "MissingEnd":
            fail(f"fault unit={fault.unit} at={fault.place} cause={fault.cause}")


def shown(data):
    """For each picture of the stream, how many are shown before it."""
    places, numbers = [], []
    for unit in whole_units(data):
        if unit.code in decoder.REFERENCE_COUNTS:
            if len(unit.payload) < 4:
                fail(f"unit {unit.index} is too short for a picture")
            numbers.append(int.from_bytes(unit.payload[:4], "big"))
        elif unit.code == decoder.END_OF_SEQUENCE and numbers:
            places += [len(places) + place for place in places_of(numbers)]
            numbers = []
    return places + [len(places) + place for place in places_of(numbers)]


def main():
    if len(sys.argv) != 2 or not re.fullmatch("[1-9][0-9]*(:[1-9][0-9]*)?", sys.argv[1]):
        fail("usage: times_of_pictures.py RATE < CLIP.drc > TIMES")
    numerator, _, denominator = sys.argv[1].partition(":")
    milliseconds = 1000 * int(denominator or 1) / int(numerator)
    places = shown(sys.stdin.buffer.read())
    print("# timestamp format v4")
    for place in places:
        print(f"{place * milliseconds:.6f}")


if __name__ == "__main__":
    main()
