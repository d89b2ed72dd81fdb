#!/usr/bin/env python3
"""Compares the product with a plain decoder and encoder that were written apart from it.

compare.py PROGRAM SECONDS [SEED [COUNT..]]     PROGRAM is dirac_tool, built (`./run list < /dev/null` builds it at
                                                crates/dirac_tool/out/dirac_tool)

Round by round it makes random streams, streams with a damaged header, rows of units, raw inputs with settings,
generated pictures, and word lists, all from the round's seed (SEED, 1 where none is given, and then the numbers after
it), of each kind in this order as many a round as a COUNT says (2 1 5 1 1 5). It runs PROGRAM with decode, list, encode
and make on them, and compares output, standard error, status and the file of --recon with what the plain programs
beside it say. The round in which SECONDS pass is the last one, and is finished; so `compare.py PROGRAM 0 SEED` repeats
the cases of one seed.

Prints each difference with its seed, and at the end a line a kind with the number of cases and how they ended: by cause
of the fault for decode and list, by status for encode. Ends with 1 where anything differs.

Like the programs that it compares with, this was written from the descriptions of the format, the encoder and the words
alone, apart from the product; it is slow and plain on purpose. Pictures have at most 40 columns and rows, or 16 where
they are encoded, for the plain programs are slow. Left out: inputs that can't be read, outputs that can't be written,
want of memory, and words that aren't UTF-8.
"""
import collections
import pathlib
import random
import re
import subprocess
import sys
import tempfile
import time
from typing import NamedTuple

sys.dont_write_bytecode = True

import decoder
import encoder

LONGEST_RUN = 300
FAULT = 4
USAGE = 2
BAD_SETTING = 3
RECON = "recon.yuv"


class Answer(NamedTuple):
    """What a run of the product leaves behind."""

    status: int
    output: bytes
    text: str
    files: dict


class Case(NamedTuple):
    words: list
    data: bytes
    expected: Answer
    ending: str


# Random streams


def random_bytes(source, length):
    """Bytes of one of three kinds: any, any behind a first bit 1, and extremes."""
    kind = source.random()
    if kind < 0.8:
        first = 0 if kind < 0.5 else 128
        lowest = [first] + [0] * length
        return bytes(source.randrange(lowest[n], 256) for n in range(length))
    return bytes(source.choice([0, 255, 128, 1]) for _ in range(length))


def random_group(source, writer, probability, write):
    """A custom flag, and a group behind it where it is true."""
    is_custom = source.random() < probability
    writer.flag(is_custom)
    if is_custom:
        write()


def random_free_number(source):
    """A small number, or rarely the least number with as many digits as are allowed, or with one more."""
    if source.random() < 0.02:
        return 2 ** (decoder.MOST_DIGITS + source.randrange(2)) - 1
    return source.randrange(5)


def random_sequence_header(source):
    """A payload that is accepted, but for a rare signal range or long number, and its sequence."""
    chroma = source.randrange(3)
    across, down = decoder.CHROMA_RATIOS[chroma]
    longest = source.choice([6, 12, 20, 40])
    width = source.randrange(1, longest // across + 1) * across
    height = source.randrange(1, longest // down + 1) * down
    are_fields = source.random() < 0.3
    frame_height = 2 * height if are_fields else height
    base = source.randrange(len(decoder.BASE_FORMATS))
    writer = encoder.BitWriter()
    writer.unsigned(source.randrange(3))
    for _ in ("minor version", "profile", "level"):
        writer.unsigned(random_free_number(source))
    writer.unsigned(base)
    writer.flag(1).unsigned(width).unsigned(frame_height).flag(1).unsigned(chroma)

    def index_or_pair(limit):
        index = source.randrange(limit)
        writer.unsigned(index)
        if index == 0:
            writer.unsigned(source.randrange(100)).unsigned(source.randrange(100))

    random_group(source, writer, 0.3, lambda: writer.unsigned(source.randrange(2)))
    random_group(source, writer, 0.3, lambda: index_or_pair(11))
    random_group(source, writer, 0.3, lambda: index_or_pair(7))
    random_group(source, writer, 0.3, lambda: writer.unsigned(width).unsigned(frame_height).unsigned(0).unsigned(0))
    random_group(source, writer, 1 if base >= 7 else 0.3, lambda: random_signal_range(source, writer))
    random_group(source, writer, 0.3, lambda: random_colour_specification(source, writer))
    payload = writer.unsigned(int(are_fields)).payload()
    if source.random() < 0.2:
        payload += random_bytes(source, source.randrange(1, 4))
    return payload, decoder.Sequence(width, height, chroma)


def random_signal_range(source, writer):
    index = source.choice([0, 1, 2, 2])
    writer.unsigned(index)
    if index == 0:
        writer.unsigned(source.randrange(50)).unsigned(source.choice([128, 200, 255]))
        writer.unsigned(128).unsigned(source.choice([128, 224, 255]))


def random_colour_specification(source, writer):
    index = source.randrange(3)
    writer.unsigned(index)
    if index == 0:
        for _ in range(3):
            random_group(source, writer, 0.5, lambda: writer.unsigned(source.randrange(9)))


def random_picture_header(source, writer, code, number, references, listed):
    writer.bytes(number.to_bytes(4, "big"))
    for reference in references:
        offset = (reference - number) % 2**32
        if offset >= 2**31:
            offset -= 2**32
        writer.signed(offset + source.choice([0] * 12 + [2**32, -(2**32), 5 * 2**32]))
    if code in decoder.REFERENCE_PICTURES:
        near = [other for other in listed if abs(other - number) < 2**31]
        if near and source.random() < 0.3:
            writer.signed(source.choice(near) - number)
        elif source.random() < 0.08:
            writer.signed(source.choice([source.randrange(-5, 6), 2**32, -(2**32), 3 * 2**32]))
        else:
            writer.signed(0)


def random_block_size(source, ratio):
    separation = ratio * source.randrange(1, 9)
    length = separation + 2 * ratio * source.randrange(separation // (2 * ratio) + 1)
    return length, separation


def random_weight(source):
    if source.random() < 0.2:
        return source.randrange(-255, 256)
    return source.randrange(-8, 9)


def random_prediction_parameters(source, writer, reference_count, chroma):
    if source.random() < 0.4:
        writer.unsigned(source.randrange(2, 5))
    else:
        across, down = decoder.CHROMA_RATIOS[chroma]
        xblen, xbsep = random_block_size(source, across)
        yblen, ybsep = random_block_size(source, down)
        writer.unsigned(0).unsigned(xblen).unsigned(yblen).unsigned(xbsep).unsigned(ybsep)
    writer.unsigned(source.randrange(4)).flag(0).unsigned(0)
    has_weights = source.random() < 0.4
    writer.flag(has_weights)
    if has_weights:
        writer.unsigned(source.randrange(1, 9)).signed(random_weight(source))
        if reference_count == 2:
            writer.signed(random_weight(source))


def random_block_tables(source, writer, reference_count):
    for table in range(2 + 2 * reference_count + 3):
        lengths = [1, 1, 2, 3, 4, 6] if table < 2 else [0, 1, 1, 2, 3, 4, 6, 10]
        block = random_bytes(source, source.choice(lengths))
        if block[:2] == b"\xff\xff" and source.random() < 0.9:
            block = b"\x7f" + block[1:]
        if block == b"" and source.random() < 0.5:
            block = b"\xbb"
        if block == b"\xff":
            block = b"\x5a"
        writer.align(source).unsigned(len(block)).align(source).bytes(block)


def random_residual(source, writer, sequence):
    depth = source.choice([1, 1, 2, 3, 4, 5])
    writer.unsigned(source.randrange(7)).unsigned(depth)
    is_partitioned = source.random() < 0.5
    indices, mode = [0, 1, 2, 3, 7, 12, 20], 0
    writer.flag(is_partitioned)
    if is_partitioned:
        for level in range(depth + 1):
            for size in (sequence.width, sequence.height):
                most = min(decoder.subband_length(size, depth, level), 5)
                writer.unsigned(source.randrange(1, most + 1))
        mode = int(source.random() < 0.15)
        writer.unsigned(mode)
    if mode == 1:
        # most offsets then stay inside
        indices = [1, 30, 40, 50, 60]
    for _ in range(3 * (3 * depth + 1)):
        writer.align(source)
        if source.random() < 0.5:
            writer.unsigned(0)
            continue
        block = random_bytes(source, source.choice([1, 1, 2, 2, 3, 5, 9]))
        if block[:2] == b"\xff\xff" or block == b"\xff":
            block = b"\x30" + block[1:]
        index = source.choice([*indices, source.randrange(100)])
        writer.unsigned(len(block)).unsigned(index).align(source).bytes(block)


def random_picture(source, code, number, references, listed, sequence):
    """A payload whose arithmetic blocks are random bytes."""
    writer = encoder.BitWriter()
    random_picture_header(source, writer, code, number, references, listed)
    writer.align(source)
    is_zero = False
    if references:
        random_prediction_parameters(source, writer, len(references), sequence.chroma)
        random_block_tables(source, writer, len(references))
        is_zero = source.random() < 0.4
        writer.align(source).flag(is_zero)
    if not is_zero:
        random_residual(source, writer, sequence)
    payload = writer.payload()
    if source.random() < 0.3:
        payload += random_bytes(source, source.randrange(1, 5))
    return payload


def random_sequence(source, writer):
    """A sequence header, some pictures with other units between them, and an end unit.

    One in ten has mostly intra reference pictures, and enough of them to fill the list of references.
    """
    header, sequence = random_sequence_header(source)
    writer.add(decoder.SEQUENCE_HEADER, header)
    listed = []
    first = source.choice([0, 0, 5, 2**31 - 3, 2**32 - 4])
    fills_list = source.random() < 0.1
    codes = [0x0C] * 8 + [0x0D, 0x0A] if fills_list else [0x0C, 0x08, 0x0D, 0x0E, 0x09, 0x0A, 0x0D, 0x0A]
    for n in range(20 if fills_list else source.choice([1, 2, 3, 4, 6, 10])):
        if source.random() < 0.08:
            code = source.choice([0x20, 0x23, 0x27, decoder.PADDING])
            writer.add(code, random_bytes(source, source.randrange(6)))
        if source.random() < 0.1:
            writer.add(decoder.SEQUENCE_HEADER, header)
        number = (first + n + source.choice([0, 0, 0, 0, 1, -1, 3])) % 2**32
        code = source.choice(codes if listed else [0x0C, 0x08])
        references = []
        for _ in range(decoder.REFERENCE_COUNTS[code]):
            is_listed = source.random() < 0.97
            references.append(source.choice(listed) if is_listed else (first + source.randrange(12)) % 2**32)
        writer.add(code, random_picture(source, code, number, references, listed, sequence))
        if code in decoder.REFERENCE_PICTURES:
            listed = [other for other in listed if other != number][-7:] + [number]
    writer.add(decoder.END_OF_SEQUENCE, b"", source.choice([0, decoder.PARSE_INFO_LENGTH]))


def random_stream(source):
    """One or two sequences; a quarter has a few bytes changed, and a few lack their end or their first unit."""
    writer = encoder.StreamWriter()
    for _ in range(source.choice([1, 1, 1, 2])):
        random_sequence(source, writer)
    stream = bytearray(writer.stream)
    kind = source.random()
    if kind < 0.25:
        for _ in range(source.choice([1, 1, 2, 4])):
            stream[source.randrange(len(stream))] = source.choice([source.randrange(256), 0, 255])
    elif kind < 0.3:
        del stream[source.randrange(len(stream)) :]
    elif kind < 0.32:
        del stream[: stream.index(b"BBCD", 1)]
    return bytes(stream)


def with_damaged_header(source, stream):
    """The stream with bits changed among the first bytes of a payload."""
    units = []
    try:
        for unit in decoder.read_units(stream):
            if unit.payload:
                units.append(unit)
    except decoder.StreamFault:
        pass
    damaged = bytearray(stream)
    if units:
        unit = source.choice(units)
        for _ in range(source.choice([1, 1, 2, 3])):
            place = unit.place + decoder.PARSE_INFO_LENGTH + source.randrange(min(len(unit.payload), 14))
            if source.random() < 0.7:
                damaged[place] ^= 1 << source.randrange(8)
            else:
                damaged[place] = source.randrange(256)
    return bytes(damaged)


def random_unit(source):
    """A unit whose parse info may be wrong."""
    code = source.choice([0, 0x10, 0x30, *decoder.REFERENCE_COUNTS, *decoder.AUXILIARY_DATA])
    kind = source.random()
    if kind < 0.02:
        code = source.choice(decoder.WITHOUT_ARITHMETIC_CODING + decoder.LOW_DELAY)
    elif kind < 0.05:
        code = source.randrange(256)
    payload = b"" if code == decoder.END_OF_SEQUENCE else random_bytes(source, source.randrange(5))
    next_offset = decoder.PARSE_INFO_LENGTH + len(payload)
    if code == decoder.END_OF_SEQUENCE:
        next_offset = source.choice([0, 13, 13, 0, 14 if source.random() < 0.3 else 0])
    if source.random() < 0.05:
        next_offset = source.choice([0, 12, 1, 2**32 - 1, decoder.PARSE_INFO_LENGTH + len(payload) + 1])
    previous_offset = source.choice([0, 1, source.randrange(2**32)])
    unit = encoder.unit(code, previous_offset, payload, next_offset)
    return unit if source.random() < 0.97 else b"BBCE" + unit[4:]


# Cases


def fault_text(fault):
    if fault is None:
        return ""
    return f"fault unit={fault.unit} at={fault.place} cause={fault.cause}\n"


def fault_answer(output, text, fault):
    status = 0 if fault is None else FAULT
    return Answer(status, output, text + fault_text(fault), {})


def cause_name(fault):
    return "no fault" if fault is None else fault.cause


def decode_case(stream):
    decoded = decoder.decode(stream)
    text = f"pictures={len(decoded.pictures)} references={decoded.most_references}\n"
    expected = fault_answer(b"".join(decoded.pictures), text, decoded.fault)
    return Case(["decode"], stream, expected, cause_name(decoded.fault))


def list_case(stream):
    lines, fault = decoder.list_units(stream)
    return Case(["list"], stream, fault_answer(lines.encode(), "", fault), cause_name(fault))


def make_random_stream(source):
    return decode_case(random_stream(source))


def make_damaged_header(source):
    return decode_case(with_damaged_header(source, random_stream(source)))


def make_unit_row(source):
    stream = b"".join(random_unit(source) for _ in range(source.randrange(6)))
    if source.random() < 0.5:
        stream += encoder.unit(decoder.END_OF_SEQUENCE, 0, b"", 0)
    if source.random() < 0.2:
        stream = stream[: source.randrange(len(stream) + 1)]
    return list_case(stream)


# the settings of inter pictures; the coarse search reaches less far than it may, for the plain encoder is slow
SEARCH_RANGES = [
    ("blocks", 2, 4),
    ("precision", 0, 3),
    ("references", 1, 2),
    ("between", 0, 3),
    ("alike", 0, 1),
    ("range", 0, 2),
    ("pyramid", 0, 4),
    ("bias", 0, 255),
]


def random_settings(source):
    """Settings in their ranges, of small pictures."""
    settings = encoder.default_settings(source.choice([0, 0, 0, 2, 7, 8, 15]))
    settings["chroma"] = source.choice([0, 1, 2, settings["chroma"]])
    across, down = decoder.CHROMA_RATIOS[settings["chroma"]]
    settings["fields"] = source.choice([0, 0, 1])
    rows = down * source.randrange(1, 9)
    settings.update(width=across * source.randrange(1, 9), height=2 * rows if settings["fields"] else rows)
    settings.update(wavelet=source.randrange(7), depth=source.randrange(1, 5))
    settings.update(index=source.choice([0, 0, 12, 5, 30, 99]), codeblocks=source.choice([1, 1, 2, 3, 8]))
    settings["finer"] = source.choice([0, 0, 1, 5, 12, 99])
    if source.random() < 0.5:
        settings.update(rate=source.randrange(1, 11), signal=source.randrange(1, 3))
        settings.update(profile=source.randrange(256), level=source.randrange(256))
    if source.random() < 0.2:
        settings["pictures"] = source.randrange(1, 5)
    settings.update(gop=source.choice([1, 2, 3, 4, 6, 12]), workers=source.choice([1, 1, 2, 3, 64]))
    for name, lowest, highest in SEARCH_RANGES:
        if source.random() < 0.5:
            settings[name] = source.randrange(lowest, highest + 1)
    return settings


def random_raw_input(source, length):
    """Samples of one of three kinds: any, extremes, and nearly grey."""
    kind = source.random()
    if kind < 0.5:
        return bytes(source.randrange(256) for _ in range(length))
    if kind < 0.7:
        return bytes(source.choice([0, 255]) for _ in range(length))
    return bytes(source.randrange(125, 132) for _ in range(length))


def random_unit_limit(source, settings, data):
    """A limit that holds for the units of the first pictures, or one byte less."""
    lengths = []
    for unit in decoder.read_units(encoder.encode(settings, data).stream):
        if unit.code in decoder.REFERENCE_COUNTS:
            lengths.append(decoder.PARSE_INFO_LENGTH + len(unit.payload))
    first = source.randrange(len(lengths) + 1)
    return max(lengths[:first], default=source.choice([15, 40, 100])) - source.randrange(2)


def make_encoding(source):
    settings = random_settings(source)
    sizes = decoder.plane_sizes(encoder.sequence_of(settings))
    length = sum(width * height for width, height in sizes)
    left = source.choice([0, 0, 0, 1, source.randrange(length)])
    data = random_raw_input(source, length * source.randrange(14 if settings["fields"] else 8) + left)
    if source.random() < 0.3:
        settings["unit_bytes"] = random_unit_limit(source, settings, data)
    defaults = encoder.default_settings(settings["base"]) | {"base": 0}
    words = []
    for name, value in settings.items():
        if value != defaults[name] or source.random() < 0.3:
            words.append(f"--{name}={value}")
    encoded = encoder.encode(settings, data)
    files = {}
    if source.random() < 0.8:
        words.append(f"--recon={RECON}")
        files[RECON] = encoded.shown
    source.shuffle(words)
    expected = Answer(encoded.status, encoded.stream, encoded.text, files)
    return Case(["encode", *words], data, expected, f"status {encoded.status}")


def make_making(source):
    settings = random_settings(source)
    count = source.randrange(6)
    if source.random() < 0.3:
        data = b"".join(encoder.generated_picture(settings, number) for number in range(count))
        settings["unit_bytes"] = max(random_unit_limit(source, settings, data), 14)
    defaults = encoder.default_settings(settings["base"]) | {"base": 0}
    words = [f"--{name}={value}" for name, value in settings.items() if value != defaults[name]]
    words.append(f"--count={count}")
    source.shuffle(words)
    made = encoder.make(settings, count)
    return Case(["make", *words], b"free", Answer(made.status, made.stream, made.text, {}), f"status {made.status}")


# Words

MOST_MADE = 1000
OTHER_WORDS = [
    "--count=0",
    "--x=1",
    "--",
    "-width=8",
    "--width",
    "8",
    "--recon=",
    "--recon",
    "--width==8",
    "--WIDTH=8",
    "--width=8=",
    "",
    "--unit-bytes=99",
    "--recon==",
]
OTHER_VALUES = ["", "+1", "-1", "1 ", "4294967296", "9999999999", "1e1", "0x1", "\uff11"]


def random_word(source):
    kind = source.random()
    if kind >= 0.9:
        return source.choice(OTHER_WORDS)
    if kind >= 0.8:
        return f"--recon={RECON}"
    name, lowest, highest = source.choice(encoder.SETTING_RANGES)
    inside = source.randrange(lowest, highest + 1)
    above = highest + 1 if source.random() < 0.3 else lowest
    below = max(lowest - 1, 0) if source.random() < 0.3 else lowest
    value = str(source.choice([lowest, highest, inside, inside, above, below]))
    if source.random() < 0.1:
        value = value.zfill(10)
    if source.random() < 0.02:
        value = value.zfill(11)
    if source.random() < 0.02:
        value = source.choice(OTHER_VALUES)
    return f"--{name}={value}"


def read_words(command, words):
    """The settings and the path that the words behind `encode` or `make` give; else the place of the first bad one."""
    names = [name for name, _, _ in encoder.SETTING_RANGES] + ["count"] * (command == "make")
    given = {}
    path = None
    for place, word in enumerate(words, 1):
        parts = re.fullmatch("--([a-z_]+)=(.*)", word, re.DOTALL)
        name, value = parts.groups() if parts else ("", "")
        if command == "encode" and name == "recon" and value != "" and path is None:
            path = value
        elif name in names and name not in given and re.fullmatch("[0-9]{1,10}", value) and int(value) < 2**32:
            given[name] = int(value)
        else:
            return None, None, place
    return encoder.default_settings(given.get("base", 0)) | given, path, None


def usage_answer(place):
    return Answer(USAGE, b"", f"usage: word {place}\n", {})


def expected_of_words(words):
    """The answer to these words on an empty input."""
    if not words or words[0] not in ("list", "decode", "encode", "make"):
        return usage_answer(0)
    if words[0] not in ("encode", "make"):
        if len(words) > 1:
            return usage_answer(1)
        return (list_case if words[0] == "list" else decode_case)(b"").expected
    settings, path, bad_place = read_words(words[0], words[1:])
    if bad_place is not None:
        return usage_answer(bad_place)
    count = settings.pop("count", 12)
    name = encoder.out_of_range(settings)
    if name is not None:
        return Answer(BAD_SETTING, b"", f"bad setting {name}={settings[name]}\n", {})
    if words[0] == "make":
        if count > MOST_MADE:
            return Answer(BAD_SETTING, b"", f"bad setting count={count}\n", {})
        made = encoder.make(settings, count)
        return Answer(made.status, made.stream, made.text, {})
    encoded = encoder.encode(settings, b"")
    files = {} if path is None else {path: encoded.shown}
    return Answer(encoded.status, encoded.stream, encoded.text, files)


def make_word_list(source):
    command = "encode"
    if source.random() < 0.07:
        command = source.choice(["list", "decode", "make", "make", "", "Encode", "encode ", "joins"])
    words = [command] + [random_word(source) for _ in range(source.choice([0, 1, 2, 3, 5, 8, 25]))]
    if command == "make":
        # pictures of any size take the plain encoder too long: none is made, or too many
        words.insert(1, source.choice(["--count=0", "--count=0", "--count=1001"]))
    if source.random() < 0.5:
        words = list({word.split("=")[0]: word for word in words}.values())
    if source.random() < 0.01:
        words = []
    expected = expected_of_words(words)
    return Case(words, b"", expected, f"status {expected.status}")


# Running and comparing


def run(program, case):
    """What the product answers, in a folder of its own."""
    with tempfile.TemporaryDirectory() as folder:
        words = [str(program), *case.words]
        try:
            done = subprocess.run(words, input=case.data, capture_output=True, timeout=LONGEST_RUN, cwd=folder)
        except subprocess.TimeoutExpired:
            return Answer(None, b"", f"no answer in {LONGEST_RUN} seconds", {})
        files = {path.name: path.read_bytes() for path in pathlib.Path(folder).iterdir()}
    return Answer(done.returncode, done.stdout, done.stderr.decode(errors="replace"), files)


def bytes_difference(name, got, expected):
    if got is None or expected is None:
        return f"{name} {'is missing' if got is None else 'is not expected'}"
    shared = min(len(got), len(expected))
    place = next((n for n in range(shared) if got[n] != expected[n]), shared)
    return f"{name} differs from byte {place} on, {len(got)} bytes, expected {len(expected)}"


def differences(got, expected):
    """Lines about what differs, none where nothing does."""
    lines = []
    if got.status != expected.status:
        lines.append(f"status {got.status}, expected {expected.status}")
    if got.text != expected.text:
        lines.append(f"standard error {got.text!r}, expected {expected.text!r}")
    if got.output != expected.output:
        lines.append(bytes_difference("output", got.output, expected.output))
    for name in sorted(got.files.keys() | expected.files.keys()):
        if got.files.get(name) != expected.files.get(name):
            lines.append(bytes_difference(f"file {name}", got.files.get(name), expected.files.get(name)))
    return lines


class Kind:
    """A kind of cases and what came of them."""

    def __init__(self, name, make, cases_a_round):
        self.name = name
        self.make = make
        self.cases_a_round = cases_a_round
        self.cases = 0
        self.differing = 0
        self.endings = collections.Counter()

    def compare(self, program, seed):
        for number in range(self.cases_a_round):
            case = self.make(random.Random(f"{self.name} {seed} {number}"))
            self.cases += 1
            self.endings[case.ending] += 1
            lines = differences(run(program, case), case.expected)
            if lines:
                self.differing += 1
                print(f"DIFFERS: {self.name}, seed {seed}, case {number}: {' '.join(case.words)}", flush=True)
                for line in lines:
                    print(f"  {line}", flush=True)

    def report(self):
        endings = ", ".join(f"{name} {count}" for name, count in self.endings.most_common())
        print(f"{self.name}: {self.cases} compared, {self.differing} differ ({endings})")


def main():
    if len(sys.argv) < 3:
        sys.exit("compare.py PROGRAM SECONDS [SEED [COUNT..]]")
    program = pathlib.Path(sys.argv[1]).resolve()
    if not program.is_file():
        sys.exit(f"compare.py: no such file: {program}")
    end = time.monotonic() + float(sys.argv[2])
    first_seed = int(sys.argv[3]) if len(sys.argv) > 3 else 1
    counts = map(int, sys.argv[4:])
    kinds = [
        Kind("random streams", make_random_stream, 2),
        Kind("damaged headers", make_damaged_header, 1),
        Kind("rows of units", make_unit_row, 5),
        Kind("encodings", make_encoding, 1),
        Kind("makings", make_making, 1),
        Kind("word lists", make_word_list, 5),
    ]
    for kind, count in zip(kinds, counts):
        kind.cases_a_round = count
    seed = first_seed
    while True:
        for kind in kinds:
            kind.compare(program, seed)
        if time.monotonic() >= end:
            break
        seed += 1
    for kind in kinds:
        kind.report()
    print(f"seeds {first_seed} to {seed}")
    sys.exit(1 if any(kind.differing for kind in kinds) else 0)


if __name__ == "__main__":
    main()
