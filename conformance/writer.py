"""Writes Dirac streams field by field, lawful ones and others: what the streams of this folder are made with.

It was written from docs/FORMAT.md alone, apart from the program and from the plain programs in bench/reference, with
Python's std alone. It chooses nothing: who calls it says which coefficients, blocks and fields a picture has.
"""

PARSE_INFO_LENGTH = 13
SEQUENCE_HEADER, END_OF_SEQUENCE, AUXILIARY, PADDING = 0x00, 0x10, 0x20, 0x30
INTRA, INTRA_UNLISTED = 0x0C, 0x08
INTER_1, INTER_2, INTER_1_UNLISTED, INTER_2_UNLISTED = 0x0D, 0x0E, 0x09, 0x0A
REFERENCE_PICTURES = (INTRA, INTER_1, INTER_2)
CHROMA_RATIOS = [(1, 1), (2, 1), (2, 2)]
BLOCK_SIZES = {2: (12, 12, 8, 8), 3: (16, 16, 12, 12), 4: (24, 24, 16, 16)}

# how far the value of a context moves, by its upper byte
STEPS = [
    0, 2, 5, 8, 11, 15, 20, 24, 29, 35, 41, 47, 53, 60, 67, 74,
    82, 89, 97, 106, 114, 123, 132, 141, 150, 160, 170, 180, 190, 201, 211, 222,
    233, 244, 256, 267, 279, 291, 303, 315, 327, 340, 353, 366, 379, 392, 405, 419,
    433, 447, 461, 475, 489, 504, 518, 533, 548, 563, 578, 593, 609, 624, 640, 656,
    672, 688, 705, 721, 738, 754, 771, 788, 805, 822, 840, 857, 875, 892, 910, 928,
    946, 964, 983, 1001, 1020, 1038, 1057, 1076, 1095, 1114, 1133, 1153, 1172, 1192, 1211, 1231,
    1251, 1271, 1291, 1311, 1332, 1352, 1373, 1393, 1414, 1435, 1456, 1477, 1498, 1520, 1541, 1562,
    1584, 1606, 1628, 1649, 1671, 1694, 1716, 1738, 1760, 1783, 1806, 1828, 1851, 1874, 1897, 1920,
    1935, 1942, 1949, 1955, 1961, 1968, 1974, 1980, 1985, 1991, 1996, 2001, 2006, 2011, 2016, 2021,
    2025, 2029, 2033, 2037, 2040, 2044, 2047, 2050, 2053, 2056, 2058, 2061, 2063, 2065, 2066, 2068,
    2069, 2070, 2071, 2072, 2072, 2072, 2072, 2072, 2072, 2071, 2070, 2069, 2068, 2066, 2065, 2063,
    2060, 2058, 2055, 2052, 2049, 2045, 2042, 2038, 2033, 2029, 2024, 2019, 2013, 2008, 2002, 1996,
    1989, 1982, 1975, 1968, 1960, 1952, 1943, 1934, 1925, 1916, 1906, 1896, 1885, 1874, 1863, 1851,
    1839, 1827, 1814, 1800, 1786, 1772, 1757, 1742, 1727, 1710, 1694, 1676, 1659, 1640, 1622, 1602,
    1582, 1561, 1540, 1518, 1495, 1471, 1447, 1422, 1396, 1369, 1341, 1312, 1282, 1251, 1219, 1186,
    1151, 1114, 1077, 1037, 995, 952, 906, 857, 805, 750, 690, 625, 553, 471, 376, 255,
]  # fmt: skip

SPLIT_NUMBERS = ([22, 23], 24, None)
VECTOR_NUMBERS = ([27, 28, 29, 30, 31], 32, 33)
DC_NUMBERS = ([34, 35], 36, 37)
OFFSET_NUMBERS = ([19], 20, 21)


class Noise:
    """Numbers that look random and are the same everywhere."""

    def __init__(self, seed):
        self.state = seed + 1

    def below(self, limit):
        self.state = (self.state * 6364136223846793005 + 1442695040888963407) % 2**64
        return (self.state >> 33) % limit

    def between(self, lowest, highest):
        return lowest + self.below(highest - lowest + 1)

    def coefficient(self, most, zeros):
        """0 with `zeros` chances in 8, else a magnitude that halves its chance with each step, with any sign."""
        if self.below(8) < zeros:
            return 0
        magnitude = 1
        while magnitude < most and self.below(2):
            magnitude += 1
        return magnitude if self.below(2) else -magnitude


class Bits:
    """The fields of a payload; each method gives the writer back. `gap` is the bit that aligning writes."""

    def __init__(self, gap=0):
        self.bits = []
        self.gap = gap

    def flag(self, value):
        self.bits.append(int(value))
        return self

    def unsigned(self, *values):
        for value in values:
            for digit in bin(value + 1)[3:]:
                self.bits += [0, int(digit)]
            self.bits.append(1)
        return self

    def signed(self, value):
        self.unsigned(abs(value))
        return self if value == 0 else self.flag(value < 0)

    def align(self):
        self.bits += [self.gap] * (-len(self.bits) % 8)
        return self

    def bytes(self, values):
        for value in values:
            self.bits += [value >> n & 1 for n in range(7, -1, -1)]
        return self

    def literal(self, value):
        return self.bytes(value.to_bytes(4, "big"))

    def payload(self):
        bits = self.bits + [self.gap] * (-len(self.bits) % 8)
        return bytes(int("".join(map(str, bits[n : n + 8])), 2) for n in range(0, len(bits), 8))


class Arithmetic:
    """An arithmetic block in the making: the low end of the interval is exact."""

    def __init__(self):
        self.low, self.range, self.doublings = 0, 0xFFFF, None
        self.contexts = {}

    def decision(self, context, truth):
        self.doublings = self.doublings or 0
        value = self.contexts.get(context, 0x8000)
        split = self.range * value >> 16
        if truth:
            self.low, self.range = self.low + split, self.range - split
            value -= STEPS[value >> 8]
        else:
            self.range = split
            value += STEPS[255 - (value >> 8)]
        self.contexts[context] = value
        while self.range <= 0x4000:
            self.low, self.range, self.doublings = 2 * self.low, 2 * self.range, self.doublings + 1

    def number(self, contexts, value):
        """A number by its contexts (follow, digits, sign); without a sign context it is unsigned."""
        follow, digits, sign = contexts
        spelt = bin(abs(value) + 1)[3:]
        for n, digit in enumerate(spelt):
            self.decision(follow[min(n, len(follow) - 1)], False)
            self.decision(digits, digit == "1")
        self.decision(follow[min(len(spelt), len(follow) - 1)], True)
        if sign is not None and value != 0:
            self.decision(sign, value < 0)

    def block(self):
        if self.doublings is None:
            return b""
        length = (self.doublings + 2 + 7) // 8
        return ((self.low + self.range >> 16 + self.doublings - 8 * length) - 1).to_bytes(length, "big")


# Sequence header


def sequence_header(
    base=0,
    size=None,
    chroma=None,
    sampling=None,
    rate=None,
    aspect=None,
    clean=None,
    signal=None,
    colour=None,
    mode=0,
    version=(2, 2),
    profile=0,
    level=0,
    behind=b"",
    marks=None,
):
    """A payload: a group is custom where it is given, an index or, where a tuple, index 0 and these values.

    `marks`, a dictionary, gets the place in bits of each group's flag, or of a field without one.
    """
    bits = Bits()
    marks = {} if marks is None else marks

    def field(name, *values):
        marks[name] = len(bits.bits)
        bits.unsigned(*values)

    def group(name, value):
        marks[name] = len(bits.bits)
        bits.flag(value is not None)
        if value is not None:
            bits.unsigned(*(value if isinstance(value, tuple) else (value,)))

    def index_or_values(name, value):
        group(name, (0, *value) if isinstance(value, tuple) else value)

    field("version", *version)
    field("profile", profile)
    field("level", level)
    field("base", base)
    group("size", size)
    group("chroma", chroma)
    group("sampling", sampling)
    index_or_values("rate", rate)
    index_or_values("aspect", aspect)
    group("clean", clean)
    index_or_values("signal", signal)
    if isinstance(colour, tuple):
        group("colour", 0)
        for index in colour:
            group("part of the colour", index)
    else:
        group("colour", colour)
    field("mode", mode)
    return bits.payload() + behind


# Subbands


def divide_up(number, divisor):
    return -(-number // divisor)


def plane_sizes(size, chroma):
    across, down = CHROMA_RATIOS[chroma]
    return [size, (size[0] // across, size[1] // down), (size[0] // across, size[1] // down)]


def band_length(length, depth, level):
    padded = divide_up(length, 2**depth) * 2**depth
    return padded >> (depth - max(level, 1) + 1)


def band_kinds(depth):
    """Level and orientation of the bands of a plane, in the order of the stream."""
    return [(0, "LL")] + [(level, kind) for level in range(1, depth + 1) for kind in ("HL", "LH", "HH")]


def at(rows, x, y):
    """A value of a band, 0 outside it on the left and above; of no band, 0."""
    return rows[y][x] if rows is not None and x >= 0 and y >= 0 else 0


def coefficient_contexts(kind, rows, parent, x, y):
    has_parent = at(parent, x // 2, y // 2) != 0
    has_neighbour = any(at(rows, *place) for place in ((x - 1, y), (x, y - 1), (x - 1, y - 1)))
    first = 2 * has_parent + has_neighbour
    follow = [first, *(range(9, 14) if has_parent else range(4, 9))]
    beside = {"LL": 0, "HH": 0, "HL": at(rows, x, y - 1), "LH": at(rows, x - 1, y)}[kind]
    return follow, 14, 15 if beside == 0 else 16 if beside < 0 else 17


def band_block(kind, rows, parent, counts, index=0, indices=None):
    """The arithmetic block of a band's values; a codeblock's zero flag is set wherever it can be.

    With `indices` each codeblock has an offset, from the band's `index` on. They are what the codeblocks are to have,
    by rows: None keeps the index of the one before, and only such a codeblock is skipped.
    """
    block = Arithmetic()
    width, height = len(rows[0]), len(rows)
    across, down = counts
    for n in range(down):
        for m in range(across):
            columns = range(width * m // across, width * (m + 1) // across)
            lines = range(height * n // down, height * (n + 1) // down)
            wanted = None if indices is None else indices[across * n + m]
            if counts != (1, 1):
                is_zero = wanted is None and all(rows[y][x] == 0 for y in lines for x in columns)
                block.decision(18, is_zero)
                if is_zero:
                    continue
            if indices is not None:
                offset = 0 if wanted is None else wanted - index
                block.number(OFFSET_NUMBERS, offset)
                index += offset
            for y in lines:
                for x in columns:
                    block.number(coefficient_contexts(kind, rows, parent, x, y), rows[y][x])
    return block.block()


class Residual:
    """Transform parameters and subbands.

    `rows(plane, level, kind, width, height)` gives the values of a band by rows, or None for a band of length 0;
    `index(plane, level, kind)` its quantiser index. `counts` are codeblocks across and down for each level. In mode 1
    `indices(plane, level, kind, index)` gives those of the codeblocks, without end, as band_block takes them.
    """

    def __init__(self, rows, index, wavelet=0, depth=2, counts=None, mode=0, indices=None):
        self.rows, self.index, self.indices = rows, index, indices
        self.wavelet, self.depth, self.counts, self.mode = wavelet, depth, counts, mode

    def write(self, bits, size, chroma):
        bits.unsigned(self.wavelet, self.depth).flag(self.counts is not None)
        if self.counts is not None:
            for count in self.counts:
                bits.unsigned(*count)
            bits.unsigned(self.mode)
        for plane, (width, height) in enumerate(plane_sizes(size, chroma)):
            self.write_plane(bits, plane, width, height)

    def write_plane(self, bits, plane, width, height):
        bands = {}
        for level, kind in band_kinds(self.depth):
            band_size = [band_length(length, self.depth, level) for length in (width, height)]
            rows = self.rows(plane, level, kind, *band_size)
            bits.align()
            if rows is None:
                bits.unsigned(0)
                continue
            bands[level, kind] = rows
            parent = bands.get((level - 1, kind))
            counts = (1, 1) if self.counts is None else self.counts[level]
            index, indices = self.index(plane, level, kind), None
            if self.mode == 1:
                source = self.indices(plane, level, kind, index)
                indices = [next(source) for _ in range(counts[0] * counts[1])]
            block = band_block(kind, rows, parent, counts, index, indices)
            bits.unsigned(len(block), index).align().bytes(block)


# Block tables


class Block:
    """What is coded for a prediction unit: a vector where it uses a reference, DC values where it uses none."""

    def __init__(self, vector_1=None, vector_2=None, dc=(0, 0, 0)):
        self.vectors = (vector_1, vector_2)
        self.is_dc = vector_1 is None and vector_2 is None
        self.dc = dc


def neighbours(x, y):
    """Left, above and above-left, as far as they are inside."""
    return [place for place in ((x - 1, y), (x, y - 1), (x - 1, y - 1)) if min(place) >= 0]


def corner_prediction(table, x, y, join):
    values = [table[place] for place in neighbours(x, y)]
    if len(values) == 3:
        return join(values)
    return values[0] if values else 0


def vector_prediction(values):
    values = sorted(values)
    if len(values) == 2:
        return (values[0] + values[1] + 1) // 2
    return values[len(values) // 2] if values else 0


def dc_prediction(values):
    if len(values) < 2:
        return values[0] if values else 0
    return (sum(values) + 1) // len(values)


class BlockTable:
    """A whole table: `split(x, y)` of a superblock, and `block(place, room)` of a unit at its first block.

    The room is how many samples the unit may move left, right, up and down to stay inside of the reference.
    """

    def __init__(self, size, block_sizes, references, split, block):
        self.size, self.block_sizes, self.references = size, block_sizes, references
        self.across, self.down = (divide_up(length, 4 * step) for length, step in zip(size, block_sizes[2:]))
        places = [(x, y) for y in range(self.down) for x in range(self.across)]
        self.splits = {place: split(*place) for place in places}
        self.units = []
        for x, y in places:
            count = 2 ** self.splits[x, y]
            for n in range(count * count):
                size = 4 // count
                unit = (4 * x + n % count * size, 4 * y + n // count * size, size)
                room = (*self.room(0, unit[0], size), *self.room(1, unit[1], size))
                self.units.append((*unit, block(unit[:2], room)))

    def room(self, direction, first_block, blocks):
        """How far the unit may move back and forth; less than 0 where it reaches over the edge and has to move."""
        length, step, total = self.block_sizes[direction], self.block_sizes[direction + 2], self.size[direction]
        overlap = (length - step) // 2
        first = min(first_block * step - overlap, total - 1)
        last = min((first_block + blocks) * step + overlap, total) - 1
        return (first, total - 1 - last)

    def lists(self):
        """The arithmetic blocks in the order of the stream."""
        yield self.split_list()
        yield self.mode_list()
        for reference in range(self.references):
            for component in range(2):
                yield self.vector_list(reference, component)
        for plane in range(3):
            yield self.dc_list(plane)

    def split_list(self):
        list_ = Arithmetic()
        for (x, y), split in self.splits.items():
            predicted = corner_prediction(self.splits, x, y, lambda values: (sum(values) + 1) // 3)
            list_.number(SPLIT_NUMBERS, (split - predicted) % 3)
        return list_.block()

    def fill(self, table, unit, value):
        x, y, size, _ = unit
        for n in range(size * size):
            table[x + n % size, y + n // size] = value

    def mode_list(self):
        list_ = Arithmetic()
        uses = [{}, {}]
        for unit in self.units:
            x, y, _, block = unit
            for reference in range(self.references):
                truth = block.vectors[reference] is not None
                predicted = corner_prediction(uses[reference], x, y, lambda values: sum(values) >= 2)
                list_.decision(25 + reference, truth != bool(predicted))
                self.fill(uses[reference], unit, truth)
        return list_.block()

    def vector_list(self, reference, component):
        list_ = Arithmetic()
        values = {}
        for unit in self.units:
            x, y, _, block = unit
            if block.vectors[reference] is not None:
                near = [values[place] for place in neighbours(x, y) if place in values]
                value = block.vectors[reference][component]
                list_.number(VECTOR_NUMBERS, value - vector_prediction(near))
                self.fill(values, unit, value)
        return list_.block()

    def dc_list(self, plane):
        list_ = Arithmetic()
        values = {}
        for unit in self.units:
            x, y, _, block = unit
            if block.is_dc:
                near = [values[place] for place in neighbours(x, y) if place in values]
                list_.number(DC_NUMBERS, block.dc[plane] - dc_prediction(near))
                self.fill(values, unit, block.dc[plane])
        return list_.block()


class Motion:
    """Prediction parameters and a block table.

    `blocks` is an index, or the four sizes; `weights` are the precision of the weights, and the weights.
    """

    def __init__(self, split, block, blocks=2, precision=2, weights=None, is_global=False, mode=0):
        self.split, self.block, self.blocks, self.precision = split, block, blocks, precision
        self.weights, self.is_global, self.mode = weights, is_global, mode

    def write(self, bits, size, references):
        bits.align()
        sizes = BLOCK_SIZES.get(self.blocks, self.blocks)
        if sizes == self.blocks:
            bits.unsigned(0, *sizes)
        else:
            bits.unsigned(self.blocks)
        bits.unsigned(self.precision).flag(self.is_global).unsigned(self.mode).flag(self.weights is not None)
        if self.weights is not None:
            bits.unsigned(self.weights[0])
            for weight in self.weights[1 : 1 + references]:
                bits.signed(weight)
        table = BlockTable(size, sizes, references, self.split, self.block)
        for list_ in table.lists():
            bits.align().unsigned(len(list_)).align().bytes(list_)


# Streams


def picture_header(bits, code, number, references, retired):
    bits.literal(number)
    for reference in references:
        bits.signed(reference)
    if code in REFERENCE_PICTURES:
        bits.signed(retired)
    return bits


class Stream:
    """Units one after another, each with the length of the one before."""

    def __init__(self):
        self.data = b""
        self.previous = 0

    def unit(self, code, payload=b"", next_offset=None, previous=None, prefix=b"BBCD"):
        length = PARSE_INFO_LENGTH + len(payload)
        next_offset = length if next_offset is None else next_offset
        previous = self.previous if previous is None else previous
        self.data += prefix + bytes([code]) + next_offset.to_bytes(4, "big") + previous.to_bytes(4, "big") + payload
        self.previous = length
        return self

    def sequence(self, size, chroma=2, **fields):
        """A sequence header unit; its size and chroma format hold for the pictures behind it.

        In picture coding mode 1 they are fields: half of the rows.
        """
        self.size, self.chroma = size, chroma
        if fields.get("mode") == 1:
            self.size = (size[0], size[1] // 2)
        fields = {"size": size, "chroma": chroma} | fields
        return self.unit(SEQUENCE_HEADER, sequence_header(**fields))

    def intra(self, number, residual, code=INTRA, retired=0, gap=0, behind=b""):
        bits = picture_header(Bits(gap), code, number, (), retired)
        residual.write(bits.align(), self.size, self.chroma)
        return self.unit(code, bits.payload() + behind)

    def inter(self, code, number, offsets, motion, residual=None, retired=0, gap=0, behind=b""):
        """An inter picture; `offsets` are added to its number, one a reference.

        Without a residual the zero residual flag is set.
        """
        bits = picture_header(Bits(gap), code, number, offsets, retired)
        motion.write(bits, self.size, len(offsets))
        bits.align().flag(residual is None)
        if residual is not None:
            residual.write(bits, self.size, self.chroma)
        return self.unit(code, bits.payload() + behind)

    def end(self, next_offset=0):
        self.unit(END_OF_SEQUENCE, b"", next_offset)
        return self
