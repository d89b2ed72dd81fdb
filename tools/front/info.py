"""`dirac info`: what a stream says of itself, without decoding a picture."""
import argparse
import json

from .formats import CHROMA_FORMATS, COLOURS, FULL_RANGE, LIMITED_RANGE, rate_text
from .plain import decoder
from .sequence import read_header
from .program import FAULT, explained
from .refusal import Refusal
from .sources import open_stream, tell
from .units import END_OF_SEQUENCE, PICTURES, SEQUENCE_HEADER, read_units

EPILOG = """examples:
  dirac info moving.drc
  dirac info archive/*.drc            one after another; a file that can't be opened is told, and passed over
  dirac info moving.mkv --json
  dirac info moving.drc --points      every point, where `dirac cut` can begin and end

A point is an intra picture. The status is 4 where the row of units has a fault; the pictures aren't decoded, so a fault
within one is told by `dirac decode` alone.
"""
POINTS_SHOWN = 8


def add_to(commands):
    parser = commands.add_parser(
        "info",
        help="tell size, rate, range, pixel aspect, pictures and points of a stream",
        description="Tells what a Dirac stream says of itself.",
        epilog=EPILOG,
        formatter_class=argparse.RawDescriptionHelpFormatter,
    )
    parser.add_argument(
        "streams", metavar="FILE", nargs="+", help="a stream or a container with one, or more; - is standard input"
    )
    parser.add_argument("--points", action="store_true", help="list every point, not the first ones alone")
    parser.add_argument("--json", action="store_true", help="for other programs")
    parser.set_defaults(run=run)


class Point:
    """An intra picture: how many pictures are coded before it in its sequence, and its number."""

    def __init__(self, index, picture, number):
        self.index, self.picture, self.number = index, picture, number


class Told:
    """What is known of a sequence."""

    def __init__(self, payload):
        self.payload, self.header = payload, read_header(payload)
        self.counts, self.points = dict.fromkeys(PICTURES, 0), []
        self.bytes, self.is_ended = 0, False

    def pictures(self):
        return sum(self.counts.values())

    def seconds(self):
        return float(self.pictures() / self.header.pictures_a_second())


class Survey:
    """All sequences of a stream, and its first fault or None."""

    def __init__(self, stream):
        self.sequences, self.fault, self.bytes, self.points = [], None, 0, 0
        self.others = 0
        try:
            for unit in read_units(stream):
                self.take(unit)
        except decoder.StreamFault as fault:
            self.fault = fault

    def take(self, unit):
        length = decoder.PARSE_INFO_LENGTH + len(unit.payload)
        self.bytes += length
        told = self.sequences[-1] if self.sequences and not self.sequences[-1].is_ended else None
        if unit.code == SEQUENCE_HEADER and told is not None:
            if unit.payload != told.payload:
                raise decoder.StreamFault(unit.index, unit.place, "SequenceChanged")
        elif unit.code == SEQUENCE_HEADER:
            try:
                told = Told(unit.payload)
            except decoder.Fault as fault:
                place = unit.place + decoder.PARSE_INFO_LENGTH + fault.place
                raise decoder.StreamFault(unit.index, place, fault.cause) from None
            self.sequences.append(told)
        elif unit.code in PICTURES:
            if told is None:
                raise decoder.StreamFault(unit.index, unit.place, "NoSequence")
            self.take_picture(told, unit)
        elif unit.code in decoder.AUXILIARY_DATA or unit.code == decoder.PADDING:
            self.others += 1
        if told is not None:
            told.bytes += length
            told.is_ended = unit.code == END_OF_SEQUENCE

    def take_picture(self, told, unit):
        if PICTURES[unit.code] == 0:
            number = int.from_bytes(unit.payload[:4], "big")
            told.points.append(Point(self.points, told.pictures(), number))
            self.points += 1
        told.counts[unit.code] += 1


def ratio_text(ratio):
    return f"{ratio.numerator}:{ratio.denominator}"


def range_text(signal):
    if signal == FULL_RANGE:
        return "full, 0 to 255"
    if signal == LIMITED_RANGE:
        return "limited, 16 to 235"
    return "luma {} to {}, chroma around {}, {} across".format(signal[0], signal[0] + signal[1], *signal[2:])


def kinds_text(counts):
    kinds = [("intra", (0x0C, 0x08)), ("of one reference", (0x0D, 0x09)), ("of two", (0x0E, 0x0A))]
    found = [(sum(counts[code] for code in codes), name) for name, codes in kinds]
    return ", ".join(f"{count} {name}" for count, name in found if count)


def points_text(told, is_whole):
    """The points with the number of their picture, and the time at which it is shown."""
    shown = told.points if is_whole else told.points[:POINTS_SHOWN]
    first = told.points[0].number if told.points else 0
    rate = told.header.pictures_a_second()
    texts = []
    for point in shown:
        after = (point.number - first) % 2**32
        texts.append(f"{point.index} (picture {point.number}, {float(after / rate):.3f} s)")
    left = len(told.points) - len(shown)
    return ", ".join(texts) + (f", and {left} more: --points" if left else "")


def lines_of(told, is_whole):
    header = told.header
    version = ".".join(map(str, header.version))
    yield "format", f"Dirac {version}, profile {header.profile}, level {header.level}, base {header.base}"
    yield "size", f"{header.width} by {header.height}, {CHROMA_FORMATS[header.chroma].name}"
    shown = round(header.width * header.aspect)
    yield "pixels", ratio_text(header.aspect) + ("" if header.aspect == 1 else f", shown {shown} wide")
    yield "rate", f"{rate_text(header.rate)} frames a second"
    yield "range", range_text(header.signal)
    yield "colours", COLOURS[header.known_colour()] if header.known_colour() else "of a kind of their own"
    coded = "pictures are fields, two a frame" if header.has_fields else "pictures are frames"
    yield "scan", f"{header.scan()}; {coded}"
    if header.clean != (header.width, header.height, 0, 0):
        yield "clean area", "{} by {}, left {}, top {}".format(*header.clean)
    seconds = told.seconds()
    kinds = f" ({kinds_text(told.counts)})" if told.pictures() else ""
    yield "pictures", f"{told.pictures()}{kinds}, {seconds:.3f} s"
    yield "points", points_text(told, is_whole) or "none"
    speed = f", {8 * told.bytes / seconds / 1000:.0f} kbit a second" if seconds else ""
    yield "bytes", f"{told.bytes}{speed}"


def print_text(stream, survey, is_whole):
    print(stream.name + (f" (out of {stream.container})" if stream.container else ""))
    for number, told in enumerate(survey.sequences):
        if len(survey.sequences) > 1:
            print(f"sequence {number}")
        for name, text in lines_of(told, is_whole):
            print(f"  {name:<11}{text}")
    if survey.others:
        print(f"  {'besides':<11}{survey.others} units of auxiliary data or padding")


def as_dictionary(told):
    header = told.header
    values = header._asdict()
    values.update(rate=str(header.rate), aspect=str(header.aspect), scan=header.scan())
    values["chroma"] = CHROMA_FORMATS[header.chroma].name
    values["colour"] = header.known_colour()
    values.update(pictures=told.pictures(), seconds=told.seconds(), bytes=told.bytes)
    values["points"] = [vars(point) for point in told.points]
    return values


def fault_line(survey):
    """The program's line for the first fault of the row of units, or None."""
    fault = survey.fault
    return None if fault is None else f"fault unit={fault.unit} at={fault.place} cause={fault.cause}"


def all_as_dictionary(stream, survey):
    told = {"name": stream.name, "container": stream.container, "bytes": survey.bytes, "fault": fault_line(survey)}
    told["sequences"] = [as_dictionary(each) for each in survey.sequences]
    return told


def run(words):
    status, dictionaries = 0, []
    for path in words.streams:
        try:
            stream = open_stream(path)
            survey = Survey(stream)
        except Refusal as problem:
            if len(words.streams) == 1:
                raise
            tell(problem.text)
            status = status or problem.status
            continue
        line = fault_line(survey)
        status = status or (FAULT if line else 0)
        if words.json:
            dictionaries.append(all_as_dictionary(stream, survey))
            continue
        print_text(stream, survey, words.points)
        if line:
            print(f"  {'fault':<11}{explained(line)}")
    if words.json:
        print(json.dumps(dictionaries[0] if len(words.streams) == 1 else dictionaries, indent=1))
    return status
