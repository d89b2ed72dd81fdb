"""A plain decoder of this project's Dirac profile, to compare the product with.

It was written from the format description alone, apart from the product, by someone who had seen nothing of the
product; the rules are those of docs/FORMAT.md. It is slow and plain on purpose: it follows the description rule by
rule, and holds a plane as a list of rows and a block table as a dictionary.

Left out: reading in pieces (a stream is one bytes object), limits of memory, and the values that change no sample
(rates, aspects, clean area, signal offsets and colours are read, checked and dropped).

decode(data) gives the pictures and the first fault, list_units(data) the lines of a listing and the first fault.
"""
from typing import NamedTuple

SEQUENCE_HEADER = 0x00
END_OF_SEQUENCE = 0x10
PADDING = 0x30
AUXILIARY_DATA = range(0x20, 0x28)
REFERENCE_COUNTS = {0x0C: 0, 0x08: 0, 0x0D: 1, 0x0E: 2, 0x09: 1, 0x0A: 2}
REFERENCE_PICTURES = (0x0C, 0x0D, 0x0E)
WITHOUT_ARITHMETIC_CODING = (0x48, 0x4C)
LOW_DELAY = (0xC8, 0xCC)
PARSE_INFO_LENGTH = 13
LARGEST_INDEX = 99
MOST_DIGITS = 38
MOST_REFERENCES = 8
MOST_WAITING = 4
CHROMA_RATIOS = [(1, 1), (2, 1), (2, 2)]
BLOCK_PRESETS = {2: (12, 8), 3: (16, 12), 4: (24, 16)}

# how far a context's value moves, by its upper byte
CONTEXT_STEPS = [
    0, 2, 5, 8, 11, 15, 20, 24, 29, 35, 41, 47, 53, 60, 67, 74,
    82, 89, 97, 106, 114, 123, 132, 141, 150, 160, 170, 180, 190, 201, 211, 222,
    233, 244, 256, 267, 279, 291, 303, 315, 327, 340, 353, 366, 379, 392, 405, 419,
    433, 447, 461, 475, 489, 504, 518, 533, 548, 563, 578, 593, 609, 624, 640, 656,
    672, 688, 705, 721, 738, 754, 771, 788, 805, 822, 840, 857, 875, 892, 910, 928,
    946, 964, 983, 1001, 1020, 1038, 1057, 1076, 1095, 1114, 1133, 1153, 1172, 1192, 1211, 1231,
    1251, 1271, 1291, 1311, 1332, 1352, 1373, 1393, 1414, 1435, 1456, 1477, 1498, 1520, 1541, 1562,
    1584, 1606, 1628, 1649, 1671, 1694, 1716, 1738, 1760, 1783, 1806, 1828, 1851, 1874, 1897, 1920,
    1935, 1942, 1949, 1955, 1961, 1968, 1974, 1980, 1985, 1991, 1996, 2001, 2006, 2011, 2016, 2021,
    2025, 2029, 2033, 2037, 2040, 2044, 2047, 2050, 2053, 2056, 2058, 2061, 2063, 2065, 2066, 2068,
    2069, 2070, 2071, 2072, 2072, 2072, 2072, 2072, 2072, 2071, 2070, 2069, 2068, 2066, 2065, 2063,
    2060, 2058, 2055, 2052, 2049, 2045, 2042, 2038, 2033, 2029, 2024, 2019, 2013, 2008, 2002, 1996,
    1989, 1982, 1975, 1968, 1960, 1952, 1943, 1934, 1925, 1916, 1906, 1896, 1885, 1874, 1863, 1851,
    1839, 1827, 1814, 1800, 1786, 1772, 1757, 1742, 1727, 1710, 1694, 1676, 1659, 1640, 1622, 1602,
    1582, 1561, 1540, 1518, 1495, 1471, 1447, 1422, 1396, 1369, 1341, 1312, 1282, 1251, 1219, 1186,
    1151, 1114, 1077, 1037, 995, 952, 906, 857, 805, 750, 690, 625, 553, 471, 376, 255,
]

CONTEXT_COUNT = 38
PARENT_ZERO_FOLLOW = [4, 5, 6, 7, 8]
PARENT_NOT_ZERO_FOLLOW = [9, 10, 11, 12, 13]
COEFFICIENT_DIGITS = 14
SIGN_ZERO, SIGN_NEGATIVE, SIGN_POSITIVE = 15, 16, 17
CODEBLOCK_ZERO = 18
OFFSET_FOLLOW, OFFSET_DIGITS, OFFSET_SIGN = [19], 20, 21
SPLIT_FOLLOW, SPLIT_DIGITS = [22, 23], 24
REFERENCE_BITS = [25, 26]
VECTOR_FOLLOW, VECTOR_DIGITS, VECTOR_SIGN = [27, 28, 29, 30, 31], 32, 33
DC_FOLLOW, DC_DIGITS, DC_SIGN = [34, 35], 36, 37


class BaseFormat(NamedTuple):
    """What a base video format gives, as far as a stream can depend on it."""

    width: int
    height: int
    chroma: int
    rate: int
    signal: int


BASE_FORMATS = [
    BaseFormat(640, 480, 2, 1, 1),
    BaseFormat(176, 120, 2, 9, 1),
    BaseFormat(176, 144, 2, 10, 1),
    BaseFormat(352, 240, 2, 9, 1),
    BaseFormat(352, 288, 2, 10, 1),
    BaseFormat(704, 480, 2, 9, 1),
    BaseFormat(704, 576, 2, 10, 1),
    BaseFormat(720, 480, 1, 4, 3),
    BaseFormat(720, 576, 1, 3, 3),
    BaseFormat(1280, 720, 1, 7, 3),
    BaseFormat(1280, 720, 1, 6, 3),
    BaseFormat(1920, 1080, 1, 4, 3),
    BaseFormat(1920, 1080, 1, 3, 3),
    BaseFormat(1920, 1080, 1, 7, 3),
    BaseFormat(1920, 1080, 1, 6, 3),
    BaseFormat(2048, 1080, 0, 2, 4),
    BaseFormat(4096, 2160, 0, 2, 4),
]

# luma offset, luma excursion, chroma offset, chroma excursion; index 0 is a custom one
SIGNAL_RANGES = [None, (0, 255, 128, 255), (16, 219, 128, 224), (64, 876, 512, 896), (256, 3504, 2048, 3584)]


class Step(NamedTuple):
    """A lifting step: it changes the even (parity 0) or odd (parity 1) positions."""

    parity: int
    sign: int
    shift: int
    first: int
    taps: list


HAAR = [Step(0, -1, 1, 1, [1]), Step(1, 1, 0, 0, [1])]
WAVELET_STEPS = [
    [Step(0, -1, 2, 0, [1, 1]), Step(1, 1, 4, -1, [-1, 9, 9, -1])],
    [Step(0, -1, 2, 0, [1, 1]), Step(1, 1, 1, 0, [1, 1])],
    [Step(0, -1, 5, -1, [-1, 9, 9, -1]), Step(1, 1, 4, -1, [-1, 9, 9, -1])],
    HAAR,
    HAAR,
    [
        Step(1, 1, 8, -3, [-2, 10, -25, 81, 81, -25, 10, -2]),
        Step(0, -1, 8, -3, [-8, 21, -46, 161, 161, -46, 21, -8]),
    ],
    [
        Step(0, -1, 12, 0, [1817, 1817]),
        Step(1, -1, 12, 0, [3616, 3616]),
        Step(0, 1, 12, 0, [217, 217]),
        Step(1, 1, 12, 0, [6497, 6497]),
    ],
]
WAVELET_SHIFTS = [1, 1, 1, 0, 1, 0, 1]


class Fault(Exception):
    """A fault inside a payload; the place counts from the payload's first byte."""

    def __init__(self, place, cause):
        super().__init__(place, cause)
        self.place = place
        self.cause = cause


class StreamFault(Exception):
    """The fault that ends a stream: unit, place in the stream, cause."""

    def __init__(self, unit, place, cause):
        super().__init__(unit, place, cause)
        self.unit = unit
        self.place = place
        self.cause = cause


def clamp(value, lowest, highest):
    return max(lowest, min(value, highest))


def divide_up(number, divisor):
    return -(-number // divisor)


# Units


class Unit(NamedTuple):
    index: int
    place: int
    code: int
    next_offset: int
    previous_offset: int
    payload: bytes


def check_parse_code(index, place, code):
    if code in WITHOUT_ARITHMETIC_CODING:
        raise StreamFault(index, place + 4, "Vlc")
    if code in LOW_DELAY:
        raise StreamFault(index, place + 4, "LowDelay")
    if code in (SEQUENCE_HEADER, END_OF_SEQUENCE, PADDING) or code in AUXILIARY_DATA or code in REFERENCE_COUNTS:
        return
    raise StreamFault(index, place + 4, "UnknownCode")


def read_unit(data, index, place):
    """The unit at this place, where at least one byte is left."""
    left = len(data) - place
    if left < PARSE_INFO_LENGTH:
        raise StreamFault(index, len(data), "Truncated")
    parse_info = data[place : place + PARSE_INFO_LENGTH]
    if parse_info[:4] != b"BBCD":
        raise StreamFault(index, place, "BadPrefix")
    code = parse_info[4]
    next_offset = int.from_bytes(parse_info[5:9], "big")
    previous_offset = int.from_bytes(parse_info[9:13], "big")
    check_parse_code(index, place, code)
    if code == END_OF_SEQUENCE:
        is_offset_good = next_offset in (0, PARSE_INFO_LENGTH)
    else:
        is_offset_good = next_offset >= PARSE_INFO_LENGTH
    if not is_offset_good:
        raise StreamFault(index, place + 5, "OffsetMissing")
    length = max(next_offset, PARSE_INFO_LENGTH)
    if length > left:
        raise StreamFault(index, len(data), "Truncated")
    payload = data[place + PARSE_INFO_LENGTH : place + length]
    return Unit(index, place, code, next_offset, previous_offset, payload)


def read_units(data):
    """The units in turn; raises the fault that ends them."""
    index = 0
    place = 0
    is_closed = False
    while place < len(data):
        unit = read_unit(data, index, place)
        yield unit
        is_closed = unit.code == END_OF_SEQUENCE
        place += PARSE_INFO_LENGTH + len(unit.payload)
        index += 1
    if not is_closed:
        raise StreamFault(index, place, "MissingEnd")


def unit_name(code):
    if code in AUXILIARY_DATA:
        return "auxiliary"
    if code in REFERENCE_COUNTS:
        return "picture"
    return {SEQUENCE_HEADER: "sequence", END_OF_SEQUENCE: "end", PADDING: "padding"}[code]


def list_units(data):
    """One line a unit before the first fault, and that fault or None."""
    lines = ""
    try:
        for unit in read_units(data):
            lines += f"{unit.index} {unit.place} {unit.code:02X} {unit_name(unit.code)}"
            lines += f" {unit.next_offset} {unit.previous_offset}\n"
    except StreamFault as fault:
        return lines, fault
    return lines, None


# Bits and numbers


class BitReader:
    """Reads the fields of a payload."""

    def __init__(self, payload):
        self.payload = payload
        self.position = 0

    def place(self):
        """The byte that holds the next bit."""
        return self.position // 8

    def bit(self, place):
        """The next bit, of a field that begins at this place."""
        if self.position >= 8 * len(self.payload):
            raise Fault(place, "UnitShort")
        value = (self.payload[self.position // 8] >> (7 - self.position % 8)) & 1
        self.position += 1
        return value

    def flag(self):
        return self.bit(self.place())

    def unsigned(self):
        place = self.place()
        value = 1
        digits = 0
        while not self.bit(place):
            digits += 1
            if digits > MOST_DIGITS:
                raise Fault(place, "NumberTooLong")
            value = 2 * value + self.bit(place)
        return value - 1

    def signed(self):
        place = self.place()
        value = self.unsigned()
        if value != 0 and self.bit(place):
            value = -value
        return value

    def align(self):
        self.position = divide_up(self.position, 8) * 8

    def bytes(self, length):
        """Place and bytes of a block, from a byte boundary on."""
        place = self.place()
        if length > len(self.payload) - place:
            raise Fault(place, "UnitShort")
        self.position += 8 * length
        return place, self.payload[place : place + length]

    def literal(self):
        _, value = self.bytes(4)
        return int.from_bytes(value, "big")


class ArithmeticDecoder:
    """Reads decisions from an arithmetic block; holds the code less low in place of both."""

    def __init__(self, place, block):
        self.place = place
        self.block = block
        self.position = 0
        self.range = 0xFFFF
        self.contexts = [0x8000] * CONTEXT_COUNT
        self.code = 0
        for _ in range(16):
            self.code = 2 * self.code + self.next_bit()
        self.is_outside = self.code == 0xFFFF

    def next_bit(self):
        """The block's next bit; past its end all bits are ones."""
        value = 1
        if self.position < 8 * len(self.block):
            value = (self.block[self.position // 8] >> (7 - self.position % 8)) & 1
        self.position += 1
        return value

    def decision(self, context):
        if self.is_outside:
            raise Fault(self.place, "CodeWord")
        probability = self.contexts[context]
        split = (self.range * probability) >> 16
        value = self.code >= split
        if value:
            self.code -= split
            self.range -= split
            self.contexts[context] = probability - CONTEXT_STEPS[probability >> 8]
        else:
            self.range = split
            self.contexts[context] = probability + CONTEXT_STEPS[255 - (probability >> 8)]
        while self.range <= 0x4000:
            self.range *= 2
            self.code = 2 * self.code + self.next_bit()
        return int(value)

    def unsigned(self, follow_contexts, digit_context):
        value = 1
        digits = 0
        while not self.decision(follow_contexts[min(digits, len(follow_contexts) - 1)]):
            digits += 1
            if digits > MOST_DIGITS:
                raise Fault(self.place, "NumberTooLong")
            value = 2 * value + self.decision(digit_context)
        return value - 1

    def signed(self, follow_contexts, digit_context, sign_context):
        value = self.unsigned(follow_contexts, digit_context)
        if value != 0 and self.decision(sign_context):
            value = -value
        return value


# Sequence header


class Sequence(NamedTuple):
    """The size of the pictures, which are frames or fields, and their chroma format."""

    width: int
    height: int
    chroma: int


def plane_sizes(sequence):
    across, down = CHROMA_RATIOS[sequence.chroma]
    chroma_size = (sequence.width // across, sequence.height // down)
    return [(sequence.width, sequence.height), chroma_size, chroma_size]


def read_limited(reader, lowest, highest, cause):
    """An unsigned number that is refused at its place where it is out of these limits."""
    place = reader.place()
    value = reader.unsigned()
    if not lowest <= value <= highest:
        raise Fault(place, cause)
    return value


def read_index_or_pair(reader, highest, cause):
    """An index behind a custom flag; two numbers follow at index 0."""
    if reader.flag() and read_limited(reader, 0, highest, cause) == 0:
        reader.unsigned()
        reader.unsigned()


def read_sequence_header(payload):
    reader = BitReader(payload)
    read_limited(reader, 0, 2, "Version")
    for _ in ("minor version", "profile", "level"):
        reader.unsigned()
    base = BASE_FORMATS[read_limited(reader, 0, len(BASE_FORMATS) - 1, "Preset")]
    width, height, chroma = base.width, base.height, base.chroma
    if reader.flag():
        width = read_limited(reader, 1, 4096, "Size")
        height = read_limited(reader, 1, 2304, "Size")
    chroma_place = reader.place()
    if reader.flag():
        chroma = read_limited(reader, 0, 2, "ChromaFormat")
    across, down = CHROMA_RATIOS[chroma]
    if width % across != 0 or height % down != 0:
        raise Fault(chroma_place, "Size")
    if reader.flag():
        read_limited(reader, 0, 1, "Sampling")
    read_index_or_pair(reader, 10, "RateIndex")
    read_index_or_pair(reader, 6, "AspectIndex")
    if reader.flag():
        for _ in ("clean width", "clean height", "left", "top"):
            reader.unsigned()
    read_signal_range(reader, base.signal)
    read_colour_specification(reader)
    mode_place = reader.place()
    if read_limited(reader, 0, 1, "Fields") == 1:
        if height % (2 * down) != 0:
            raise Fault(mode_place, "Size")
        height //= 2
    return Sequence(width, height, chroma)


def signal_depth(excursion):
    depth = 0
    while 2**depth < excursion + 1:
        depth += 1
    return depth


def read_signal_range(reader, base_index):
    flag_place = reader.place()
    signal = SIGNAL_RANGES[base_index]
    if reader.flag():
        index = read_limited(reader, 0, 4, "SignalRange")
        if index == 0:
            signal = tuple(reader.unsigned() for _ in range(4))
        else:
            signal = SIGNAL_RANGES[index]
    if signal_depth(signal[1]) != 8 or signal_depth(signal[3]) != 8:
        raise Fault(flag_place, "Depth8")


def read_colour_specification(reader):
    if reader.flag() and reader.unsigned() == 0:
        for _ in ("primaries", "matrix", "transfer function"):
            if reader.flag():
                reader.unsigned()


# Prediction parameters and block tables


class PredictionParameters(NamedTuple):
    xblen: int
    yblen: int
    xbsep: int
    ybsep: int
    precision: int
    weight_precision: int
    weights: tuple


def is_block_size_good(length, separation, ratio):
    if not 1 <= separation <= length <= 2 * separation or length > 64:
        return False
    if length % ratio != 0 or separation % ratio != 0:
        return False
    return (length - separation) % (2 * ratio) == 0


def read_block_parameters(reader, chroma):
    """xblen, yblen, xbsep, ybsep"""
    index_place = reader.place()
    index = reader.unsigned()
    if index in BLOCK_PRESETS:
        length, separation = BLOCK_PRESETS[index]
        return length, length, separation, separation
    if index != 0:
        raise Fault(index_place, "BlockPreset")
    place = reader.place()
    xblen, yblen, xbsep, ybsep = (reader.unsigned() for _ in range(4))
    across, down = CHROMA_RATIOS[chroma]
    if not is_block_size_good(xblen, xbsep, across) or not is_block_size_good(yblen, ybsep, down):
        raise Fault(place, "BlockSize")
    return xblen, yblen, xbsep, ybsep


def read_weight(reader):
    place = reader.place()
    weight = reader.signed()
    if abs(weight) > 255:
        raise Fault(place, "Weights")
    return weight


def read_prediction_parameters(reader, reference_count, chroma):
    reader.align()
    block_parameters = read_block_parameters(reader, chroma)
    precision = read_limited(reader, 0, 3, "Precision")
    global_motion_place = reader.place()
    if reader.flag():
        raise Fault(global_motion_place, "GlobalMotion")
    read_limited(reader, 0, 0, "PredictionMode")
    weight_precision, weight_1, weight_2 = 1, 1, 1
    if reader.flag():
        weight_precision = read_limited(reader, 1, 8, "Weights")
        weight_1 = read_weight(reader)
        if reference_count == 2:
            weight_2 = read_weight(reader)
    return PredictionParameters(*block_parameters, precision, weight_precision, (weight_1, weight_2))


class PredictionUnit(NamedTuple):
    """A square of blocks that are coded as one: its first block, and how many blocks it has in each direction."""

    x: int
    y: int
    size: int

    def fill(self, table, value):
        for y in range(self.y, self.y + self.size):
            for x in range(self.x, self.x + self.size):
                table[x, y] = value

    def neighbours(self):
        """Left, above and above-left, as far as they are inside."""
        places = ((self.x - 1, self.y), (self.x, self.y - 1), (self.x - 1, self.y - 1))
        return [place for place in places if place[0] >= 0 and place[1] >= 0]


class BlockTables(NamedTuple):
    """Dictionaries by block: whether a reference is used, its vector across and down, the DC value of a plane."""

    across: int
    down: int
    uses: list
    vectors: list
    dc_values: list


def read_arithmetic_block(reader):
    length = reader.unsigned()
    reader.align()
    return ArithmeticDecoder(*reader.bytes(length))


def read_block_tables(reader, superblocks_across, superblocks_down, reference_count):
    reader.align()
    splits = read_splits(read_arithmetic_block(reader), superblocks_across, superblocks_down)
    units = prediction_units(splits)
    uses = read_reference_bits(read_arithmetic_block(reader), units, reference_count)
    vectors = []
    for reference in range(reference_count):
        horizontal = read_vectors(read_arithmetic_block(reader), units, uses[reference])
        vertical = read_vectors(read_arithmetic_block(reader), units, uses[reference])
        vectors.append((horizontal, vertical))
    dc_values = [read_dc_values(read_arithmetic_block(reader), units, uses) for _ in range(3)]
    return BlockTables(4 * superblocks_across, 4 * superblocks_down, uses, vectors, dc_values)


def corner_prediction(table, x, y, join):
    """Nothing at the corner, left in the top row, above in the left column, else left, above and above-left joined."""
    if x == 0 and y == 0:
        return 0
    if y == 0:
        return table[x - 1, 0]
    if x == 0:
        return table[0, y - 1]
    return join(table[x - 1, y], table[x, y - 1], table[x - 1, y - 1])


def mean_of_three(left, above, above_left):
    return (left + above + above_left + 1) // 3


def majority(left, above, above_left):
    return int(left + above + above_left >= 2)


def read_splits(decoder, superblocks_across, superblocks_down):
    splits = {}
    for y in range(superblocks_down):
        for x in range(superblocks_across):
            predicted = corner_prediction(splits, x, y, mean_of_three)
            splits[x, y] = (decoder.unsigned(SPLIT_FOLLOW, SPLIT_DIGITS) + predicted) % 3
    return splits


def prediction_units(splits):
    units = []
    for (x, y), split in splits.items():
        count = 2**split
        size = 4 // count
        for row in range(count):
            for column in range(count):
                units.append(PredictionUnit(4 * x + column * size, 4 * y + row * size, size))
    return units


def read_reference_bits(decoder, units, reference_count):
    """Whether a block uses reference 1, and reference 2."""
    uses = [{}, {}]
    for unit in units:
        for reference in range(reference_count):
            predicted = corner_prediction(uses[reference], unit.x, unit.y, majority)
            unit.fill(uses[reference], decoder.decision(REFERENCE_BITS[reference]) ^ predicted)
        if reference_count == 1:
            unit.fill(uses[1], 0)
    return uses


def predict_vector(neighbours):
    if len(neighbours) == 0:
        return 0
    if len(neighbours) == 1:
        return neighbours[0]
    if len(neighbours) == 2:
        return (neighbours[0] + neighbours[1] + 1) // 2
    return sorted(neighbours)[1]


def read_vectors(decoder, units, uses):
    """One component of the vectors to one reference."""
    vectors = {}
    for unit in units:
        value = 0
        if uses[unit.x, unit.y]:
            value = predict_vector([vectors[place] for place in unit.neighbours() if uses[place]])
            value += decoder.signed(VECTOR_FOLLOW, VECTOR_DIGITS, VECTOR_SIGN)
            if not -32768 <= value <= 32767:
                raise Fault(decoder.place, "VectorRange")
        unit.fill(vectors, value)
    return vectors


def predict_dc_value(neighbours):
    if len(neighbours) == 0:
        return 0
    if len(neighbours) == 1:
        return neighbours[0]
    return (sum(neighbours) + 1) // len(neighbours)


def read_dc_values(decoder, units, uses):
    """The DC values of one plane."""

    def is_dc(place):
        return not uses[0][place] and not uses[1][place]

    dc_values = {}
    for unit in units:
        value = 0
        if is_dc((unit.x, unit.y)):
            value = predict_dc_value([dc_values[place] for place in unit.neighbours() if is_dc(place)])
            value += decoder.signed(DC_FOLLOW, DC_DIGITS, DC_SIGN)
            if not -32768 <= value <= 32767:
                raise Fault(decoder.place, "DcRange")
        unit.fill(dc_values, value)
    return dc_values


# Transform parameters and subbands


class TransformParameters(NamedTuple):
    """The wavelet index, the transform depth, the codeblock counts across and down of each level, and their mode."""

    wavelet: int
    depth: int
    codeblock_counts: list
    codeblock_mode: int


class Subband(NamedTuple):
    """Values are those coded, by rows; counts are those of its codeblocks, each of which has an index, by rows."""

    width: int
    height: int
    index: int
    values: list
    counts: tuple
    indices: list

    def value(self, x, y):
        """The value at a place that may lie left of the band or above it."""
        if x < 0 or y < 0:
            return 0
        return self.values[y * self.width + x]


def subband_length(size, depth, level):
    """Columns or rows of a level's bands, of a plane with this many."""
    padded = divide_up(size, 2**depth) * 2**depth
    if level == 0:
        return padded >> depth
    return padded >> (depth - level + 1)


def subband_kind(position):
    """Level and orientation of a subband, by its position among those of its plane."""
    if position == 0:
        return 0, "LL"
    return (position + 2) // 3, ("HL", "LH", "HH")[(position - 1) % 3]


def read_transform_parameters(reader, width, height):
    wavelet = read_limited(reader, 0, 6, "Wavelet")
    depth = read_limited(reader, 1, 5, "Depth")
    counts = [(1, 1)] * (depth + 1)
    mode = 0
    if reader.flag():
        counts = []
        for level in range(depth + 1):
            across = read_limited(reader, 1, subband_length(width, depth, level), "Codeblocks")
            down = read_limited(reader, 1, subband_length(height, depth, level), "Codeblocks")
            counts.append((across, down))
        mode = read_limited(reader, 0, 1, "CodeblockMode")
    return TransformParameters(wavelet, depth, counts, mode)


def codeblocks(width, height, across, down):
    """Rows and columns of each codeblock in turn."""
    for row in range(down):
        rows = range(height * row // down, height * (row + 1) // down)
        for column in range(across):
            yield rows, range(width * column // across, width * (column + 1) // across)


def coefficient_contexts(orientation, band, parent, x, y):
    """The follow contexts and the sign context of a coefficient."""
    left, above, above_left = band.value(x - 1, y), band.value(x, y - 1), band.value(x - 1, y - 1)
    parent_value = 0 if parent is None else parent.value(x // 2, y // 2)
    has_neighbourhood = left != 0 or above != 0 or above_left != 0
    first = 2 * int(parent_value != 0) + int(has_neighbourhood)
    follow = [first] + (PARENT_NOT_ZERO_FOLLOW if parent_value != 0 else PARENT_ZERO_FOLLOW)
    sign_neighbour = {"HL": above, "LH": left}.get(orientation, 0)
    if sign_neighbour == 0:
        return follow, SIGN_ZERO
    return follow, SIGN_NEGATIVE if sign_neighbour < 0 else SIGN_POSITIVE


def read_codeblock_index(decoder, index):
    """What an offset makes of the index so far."""
    index += decoder.signed(OFFSET_FOLLOW, OFFSET_DIGITS, OFFSET_SIGN)
    if not 0 <= index <= LARGEST_INDEX:
        raise Fault(decoder.place, "QuantIndex")
    return index


def read_subband(reader, orientation, width, height, counts, mode, parent):
    reader.align()
    length = reader.unsigned()
    values = [0] * (width * height)
    if length == 0:
        return Subband(width, height, 0, values, counts, [0] * (counts[0] * counts[1]))
    index = read_limited(reader, 0, LARGEST_INDEX, "QuantIndex")
    reader.align()
    decoder = ArithmeticDecoder(*reader.bytes(length))
    band = Subband(width, height, index, values, counts, [])
    for rows, columns in codeblocks(width, height, *counts):
        is_skipped = counts != (1, 1) and decoder.decision(CODEBLOCK_ZERO)
        if mode == 1 and not is_skipped:
            index = read_codeblock_index(decoder, index)
        band.indices.append(index)
        if is_skipped:
            continue
        for y in rows:
            for x in columns:
                follow, sign = coefficient_contexts(orientation, band, parent, x, y)
                values[y * width + x] = decoder.signed(follow, COEFFICIENT_DIGITS, sign)
    return band


def read_plane_subbands(reader, parameters, width, height):
    bands = []
    for position in range(3 * parameters.depth + 1):
        level, orientation = subband_kind(position)
        band_width = subband_length(width, parameters.depth, level)
        band_height = subband_length(height, parameters.depth, level)
        parent = bands[position - 3] if level >= 2 else None
        counts = parameters.codeblock_counts[level]
        mode = parameters.codeblock_mode
        bands.append(read_subband(reader, orientation, band_width, band_height, counts, mode, parent))
    return bands


# Restoring and synthesis


def quantiser_factor(index):
    base = 2 ** (index // 4)
    if index % 4 == 0:
        return 4 * base
    if index % 4 == 1:
        return (503829 * base + 52958) // 105917
    if index % 4 == 2:
        return (665857 * base + 58854) // 117708
    return (440253 * base + 32722) // 65444


def quantiser_offset(index, is_intra):
    if index == 0:
        return 1
    if index == 1:
        return 2
    if is_intra:
        return (quantiser_factor(index) + 1) // 2
    return (3 * quantiser_factor(index) + 4) // 8


def restore_value(value, factor, offset):
    if value == 0:
        return 0
    magnitude = (abs(value) * factor + offset + 2) // 4
    return -magnitude if value < 0 else magnitude


def restore_subband(band, is_intra):
    """The band's restored values as rows, each codeblock by its index."""
    restored = [[0] * band.width for _ in range(band.height)]
    for (rows, columns), index in zip(codeblocks(band.width, band.height, *band.counts), band.indices):
        factor = quantiser_factor(index)
        offset = quantiser_offset(index, is_intra)
        for y in rows:
            for x in columns:
                restored[y][x] = restore_value(band.value(x, y), factor, offset)
    return restored


def predict_low_low(rows, x, y):
    """What a value of the last LL band is predicted as, from the ones before it."""
    if x == 0 and y == 0:
        return 0
    if y == 0:
        return rows[0][x - 1]
    if x == 0:
        return rows[y - 1][0]
    return mean_of_three(rows[y][x - 1], rows[y - 1][x], rows[y - 1][x - 1])


def lift(line, step, sign):
    """One lifting step on a line of even length."""
    length = len(line)
    result = list(line)
    for n in range(length // 2):
        total = 0
        for i, tap in enumerate(step.taps, step.first):
            if step.parity == 0:
                position = clamp(2 * (n + i) - 1, 1, length - 1)
            else:
                position = clamp(2 * (n + i), 0, length - 2)
            total += tap * line[position]
        if step.shift > 0:
            total += 2 ** (step.shift - 1)
        result[2 * n + step.parity] += sign * (total >> step.shift)
    return result


def synthesise_line(line, wavelet):
    for step in WAVELET_STEPS[wavelet]:
        line = lift(line, step, step.sign)
    return line


def transpose(rows):
    return [list(column) for column in zip(*rows)]


def interleave(low_low, high_low, low_high, high_high):
    rows = []
    for y in range(len(low_low)):
        even, odd = [], []
        for x in range(len(low_low[0])):
            even += [low_low[y][x], high_low[y][x]]
            odd += [low_high[y][x], high_high[y][x]]
        rows += [even, odd]
    return rows


def synthesise_level(bands, wavelet):
    """The rows that the four bands of a level make."""
    rows = interleave(*bands)
    rows = transpose([synthesise_line(column, wavelet) for column in transpose(rows)])
    rows = [synthesise_line(row, wavelet) for row in rows]
    if WAVELET_SHIFTS[wavelet]:
        rows = [[(value + 1) >> 1 for value in row] for row in rows]
    return rows


def restore_plane(bands, parameters, is_intra, width, height):
    """The residual of a plane, or all of it in an intra picture."""
    low_low = restore_subband(bands[0], is_intra)
    if is_intra:
        for y in range(bands[0].height):
            for x in range(bands[0].width):
                low_low[y][x] += predict_low_low(low_low, x, y)
    for level in range(1, parameters.depth + 1):
        others = [restore_subband(band, is_intra) for band in bands[3 * level - 2 : 3 * level + 1]]
        low_low = synthesise_level([low_low, *others], parameters.wavelet)
    return [row[:width] for row in low_low[:height]]


# Motion compensation


def clip_sample(value):
    return clamp(value, -128, 127)


def with_half_samples(line):
    """The line with a half sample between each two of its samples."""
    last = len(line) - 1

    def sample(position):
        return line[clamp(position, 0, last)]

    result = [line[0]]
    for n in range(last):
        total = 21 * (sample(n) + sample(n + 1)) - 7 * (sample(n - 1) + sample(n + 2))
        total += 3 * (sample(n - 2) + sample(n + 3)) - (sample(n - 3) + sample(n + 4))
        result.append(clip_sample((total + 16) >> 5))
        result.append(line[n + 1])
    return result


def upconvert(plane):
    """Half samples between rows first, then between columns."""
    rows = transpose([with_half_samples(column) for column in transpose(plane)])
    return [with_half_samples(row) for row in rows]


def clamped_sample(plane, x, y):
    return plane[clamp(y, 0, len(plane) - 1)][clamp(x, 0, len(plane[0]) - 1)]


def sub_sample(plane, upconverted, precision, x, y):
    """The value at x, y in 2^precision parts of a sample."""
    if precision == 0:
        return clamped_sample(plane, x, y)
    one = 2 ** (precision - 1)
    half_x, half_y = x // one, y // one
    rest_x, rest_y = x - half_x * one, y - half_y * one
    total = 0
    for weight_y, row in ((one - rest_y, half_y), (rest_y, half_y + 1)):
        for weight_x, column in ((one - rest_x, half_x), (rest_x, half_x + 1)):
            total += weight_x * weight_y * clamped_sample(upconverted, column, row)
    if precision > 1:
        total += 2 ** (2 * precision - 3)
    return total >> (2 * precision - 2)


def ramp(t, offset):
    if offset == 1:
        return (3, 5)[t]
    return 1 + (6 * t + offset - 1) // (2 * offset - 1)


def block_weight(block, block_count, length, separation, t):
    """The weight at t of a block's line."""
    offset = (length - separation) // 2
    if block == 0 and 2 * t < length:
        return 8
    if block == block_count - 1 and 2 * t >= length:
        return 8
    if t < 2 * offset:
        return ramp(t, offset)
    if t > length - 1 - 2 * offset:
        return ramp(length - 1 - t, offset)
    return 8


class Reference(NamedTuple):
    """One plane of a reference picture."""

    plane: list
    upconverted: list


class PlanePrediction:
    """Predicts one plane of an inter picture."""

    def __init__(self, parameters, tables, planes, plane_number, chroma, size):
        self.across, self.down = CHROMA_RATIOS[chroma] if plane_number > 0 else (1, 1)
        self.xblen, self.yblen = parameters.xblen // self.across, parameters.yblen // self.down
        self.xbsep, self.ybsep = parameters.xbsep // self.across, parameters.ybsep // self.down
        self.parameters = parameters
        self.tables = tables
        self.dc_values = tables.dc_values[plane_number]
        self.references = [Reference(plane, upconvert(plane)) for plane in planes]
        self.width, self.height = size

    def reference_value(self, reference, block, x, y):
        """The value that the block's vector to this reference points to."""
        precision = self.parameters.precision
        horizontal, vertical = self.tables.vectors[reference]
        across = (x << precision) + horizontal[block] // self.across
        down = (y << precision) + vertical[block] // self.down
        plane, upconverted = self.references[reference]
        return sub_sample(plane, upconverted, precision, across, down)

    def block_value(self, block, x, y):
        values = [self.reference_value(n, block, x, y) for n in range(2) if self.tables.uses[n][block]]
        weight_1, weight_2 = self.parameters.weights
        shift = self.parameters.weight_precision
        if len(values) == 0:
            return self.dc_values[block]
        if len(values) == 1:
            return (values[0] * (weight_1 + weight_2) + 2 ** (shift - 1)) >> shift
        return (values[0] * weight_1 + values[1] * weight_2 + 2 ** (shift - 1)) >> shift

    def add_block(self, sums, column, row):
        first_x = column * self.xbsep - (self.xblen - self.xbsep) // 2
        first_y = row * self.ybsep - (self.yblen - self.ybsep) // 2
        for y in range(max(first_y, 0), min(first_y + self.yblen, self.height)):
            weight_y = block_weight(row, self.tables.down, self.yblen, self.ybsep, y - first_y)
            for x in range(max(first_x, 0), min(first_x + self.xblen, self.width)):
                weight_x = block_weight(column, self.tables.across, self.xblen, self.xbsep, x - first_x)
                sums[y][x] += self.block_value((column, row), x, y) * weight_x * weight_y

    def rows(self):
        sums = [[0] * self.width for _ in range(self.height)]
        for row in range(self.tables.down):
            for column in range(self.tables.across):
                self.add_block(sums, column, row)
        return [[(value + 32) >> 6 for value in row] for row in sums]


# Pictures


class Picture(NamedTuple):
    number: int
    planes: list

    def raw(self):
        """The raw picture: the rows of Y, then U, then V, one byte a sample."""
        return bytes(sample + 128 for plane in self.planes for row in plane for sample in row)


def read_picture_header(reader, code):
    """The picture number, the numbers of its references, and the number that is retired or None."""
    number = reader.literal()
    references = [(number + reader.signed()) % 2**32 for _ in range(REFERENCE_COUNTS[code])]
    retired = None
    if code in REFERENCE_PICTURES:
        offset = reader.signed()
        if offset != 0:
            retired = (number + offset) % 2**32
    return number, references, retired


def find_reference(references, number):
    for picture in references:
        if picture.number == number:
            return picture
    raise Fault(0, "MissingReference")


def read_residuals(reader, is_intra, sizes):
    """The residual of each plane."""
    reader.align()
    if not is_intra and reader.flag():
        return [[[0] * width for _ in range(height)] for width, height in sizes]
    parameters = read_transform_parameters(reader, *sizes[0])
    subbands = [read_plane_subbands(reader, parameters, *size) for size in sizes]
    return [restore_plane(bands, parameters, is_intra, *size) for bands, size in zip(subbands, sizes)]


def add_planes(left, right):
    return [[a + b for a, b in zip(*rows)] for rows in zip(left, right)]


def decode_picture(code, sequence, references, payload):
    """The picture, and the number that it retires or None."""
    reader = BitReader(payload)
    number, reference_numbers, retired = read_picture_header(reader, code)
    used = [find_reference(references, reference) for reference in reference_numbers]
    is_intra = len(used) == 0
    if not is_intra:
        parameters = read_prediction_parameters(reader, len(used), sequence.chroma)
        superblocks_across = divide_up(sequence.width, 4 * parameters.xbsep)
        superblocks_down = divide_up(sequence.height, 4 * parameters.ybsep)
        tables = read_block_tables(reader, superblocks_across, superblocks_down, len(used))
    sizes = plane_sizes(sequence)
    planes = read_residuals(reader, is_intra, sizes)
    if not is_intra:
        for n, size in enumerate(sizes):
            reference_planes = [picture.planes[n] for picture in used]
            prediction = PlanePrediction(parameters, tables, reference_planes, n, sequence.chroma, size)
            planes[n] = add_planes(planes[n], prediction.rows())
    planes = [[[clip_sample(value) for value in row] for row in plane] for plane in planes]
    return Picture(number, planes), retired


# References and delivery


class Delivery:
    """Pictures wait, and go out by their keys."""

    def __init__(self):
        self.delivered = []
        self.waiting = []
        self.first_number = None

    def key(self, number):
        key = (number - self.first_number) % 2**32
        return key - 2**32 if key >= 2**31 else key

    def add(self, picture):
        if self.first_number is None:
            self.first_number = picture.number
        self.waiting.append((self.key(picture.number), picture.raw()))
        if len(self.waiting) > MOST_WAITING:
            self.deliver_least()

    def deliver_least(self):
        least = min(range(len(self.waiting)), key=lambda n: (self.waiting[n][0], n))
        self.delivered.append(self.waiting.pop(least)[1])

    def end_sequence(self):
        while self.waiting:
            self.deliver_least()
        self.first_number = None


def list_reference(references, picture):
    """The list of references with this picture appended."""
    references = [listed for listed in references if listed.number != picture.number]
    if len(references) == MOST_REFERENCES:
        references = references[1:]
    return references + [picture]


class Decoder:
    """Takes the units in turn."""

    def __init__(self):
        self.delivery = Delivery()
        self.header = None
        self.sequence = None
        self.references = []
        self.most_references = 0

    def take(self, unit):
        if unit.code == SEQUENCE_HEADER:
            self.take_sequence_header(unit.payload)
        elif unit.code in REFERENCE_COUNTS:
            self.take_picture(unit.code, unit.payload)
        elif unit.code == END_OF_SEQUENCE:
            self.delivery.end_sequence()
            self.sequence = None
            self.references = []

    def take_sequence_header(self, payload):
        if self.sequence is None:
            self.sequence = read_sequence_header(payload)
            self.header = payload
        elif payload != self.header:
            raise Fault(-PARSE_INFO_LENGTH, "SequenceChanged")

    def take_picture(self, code, payload):
        if self.sequence is None:
            raise Fault(-PARSE_INFO_LENGTH, "NoSequence")
        picture, retired = decode_picture(code, self.sequence, self.references, payload)
        if retired is not None:
            self.references = [listed for listed in self.references if listed.number != retired]
        if code in REFERENCE_PICTURES:
            self.references = list_reference(self.references, picture)
        self.most_references = max(self.most_references, len(self.references))
        self.delivery.add(picture)


class Decoded(NamedTuple):
    """The raw pictures in the order of delivery, the most references listed at once, and the fault or None."""

    pictures: list
    most_references: int
    fault: StreamFault


def decode(data):
    decoder = Decoder()
    found = None
    try:
        for unit in read_units(data):
            try:
                decoder.take(unit)
            except Fault as fault:
                place = unit.place + PARSE_INFO_LENGTH + fault.place
                raise StreamFault(unit.index, place, fault.cause) from None
    except StreamFault as fault:
        found = fault
    decoder.delivery.end_sequence()
    return Decoded(decoder.delivery.delivered, decoder.most_references, found)
