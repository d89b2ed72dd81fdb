"""A plain encoder of this project's streams, to compare the product with.

It was written from the descriptions of the encoder and of the format alone, apart from the product, by someone who had
seen nothing of the product; the rules are those of docs/ENCODER.md. It is slow and plain on purpose: the low end of the
arithmetic coder's interval is one long exact number, and the search takes sample by sample. It shares tables, contexts,
predictions and lifting with the plain decoder, and takes the pictures that decoders will show from it.

encode(settings, data) gives the stream, the pictures that decoders will show, and the answer as status and text;
out_of_range(settings) names the first setting that is out of its range; plan(count, settings) is the coding order.
"""
from typing import NamedTuple

import decoder

INTRA_REFERENCE_PICTURE = 0x0C
INTER_REFERENCE_PICTURES = {1: 0x0D, 2: 0x0E}
INTER_PICTURES = {1: 0x09, 2: 0x0A}
UNIT_TOO_LONG = 6
TOO_MANY_PICTURES = 7
PARTIAL_PICTURE = 5
FLAT_BELOW = 64

# name, lowest, highest, in the order of their check
SETTING_RANGES = [
    ("base", 0, 16),
    ("chroma", 0, 2),
    ("width", 1, 4096),
    ("height", 1, 2304),
    ("rate", 1, 10),
    ("signal", 1, 2),
    ("fields", 0, 1),
    ("profile", 0, 255),
    ("level", 0, 255),
    ("wavelet", 0, 6),
    ("depth", 1, 4),
    ("index", 0, 99),
    ("codeblocks", 1, 8),
    ("finer", 0, 99),
    ("blocks", 2, 4),
    ("precision", 0, 3),
    ("references", 1, 2),
    ("gop", 1, 65535),
    ("between", 0, 3),
    ("range", 0, 16),
    ("pyramid", 0, 4),
    ("bias", 0, 255),
    ("workers", 1, 64),
    ("pictures", 1, 2147483647),
    ("unit_bytes", 14, 4294967295),
    ("alike", 0, 1),
]

SETTING_DEFAULTS = {
    "fields": 0,
    "profile": 0,
    "level": 0,
    "wavelet": 0,
    "depth": 4,
    "index": 12,
    "codeblocks": 1,
    "finer": 0,
    "blocks": 2,
    "precision": 2,
    "references": 2,
    "gop": 12,
    "between": 2,
    "range": 4,
    "pyramid": 3,
    "bias": 4,
    "workers": 1,
    "pictures": 2147483647,
    "unit_bytes": 4294967295,
    "alike": 0,
}


def default_settings(base):
    """All settings where only the base is given; a base out of its range gives what base 0 does."""
    base_format = decoder.BASE_FORMATS[base if base < len(decoder.BASE_FORMATS) else 0]
    settings = {"base": base, "chroma": base_format.chroma}
    settings.update(width=base_format.width, height=base_format.height, rate=base_format.rate)
    settings["signal"] = 1 if base_format.signal == 1 else 2
    return settings | SETTING_DEFAULTS


def out_of_range(settings):
    """The name of the first setting that is out of its range, or None."""
    for name, lowest, highest in SETTING_RANGES:
        unit = 1
        if name == "width" and settings["chroma"] > 0:
            unit = 2
        if name == "height":
            unit = (2 if settings["chroma"] == 2 else 1) * (2 if settings["fields"] == 1 else 1)
        if not lowest <= settings[name] <= highest or settings[name] % unit != 0:
            return name
    return None


# Bits and numbers


class BitWriter:
    """Writes the fields of a payload; each method gives the writer back."""

    def __init__(self):
        self.bits = []

    def unsigned(self, value):
        for digit in bin(value + 1)[3:]:
            self.bits += [0, int(digit)]
        self.bits.append(1)
        return self

    def signed(self, value):
        self.unsigned(abs(value))
        if value != 0:
            self.bits.append(int(value < 0))
        return self

    def flag(self, value):
        self.bits.append(int(value))
        return self

    def align(self, source=None):
        """Up to the next byte, with zeros or with bits of a random source."""
        while len(self.bits) % 8 != 0:
            self.bits.append(source.randrange(2) if source else 0)
        return self

    def bytes(self, values):
        for value in values:
            self.bits += [(value >> (7 - n)) & 1 for n in range(8)]
        return self

    def payload(self):
        bits = self.bits + [0] * (-len(self.bits) % 8)
        places = range(0, len(bits), 8)
        return bytes(int("".join(map(str, bits[place : place + 8])), 2) for place in places)


def signed_bits(value):
    """How many bits a signed number takes."""
    return len(BitWriter().signed(value).bits)


class ArithmeticEncoder:
    """Writes decisions; low is exact, after so many doublings."""

    def __init__(self):
        self.low = 0
        self.range = 0xFFFF
        self.doublings = 0
        self.contexts = [0x8000] * decoder.CONTEXT_COUNT
        self.is_empty = True

    def decision(self, context, value):
        self.is_empty = False
        probability = self.contexts[context]
        split = (self.range * probability) >> 16
        if value:
            self.low += split
            self.range -= split
            self.contexts[context] = probability - decoder.CONTEXT_STEPS[probability >> 8]
        else:
            self.range = split
            self.contexts[context] = probability + decoder.CONTEXT_STEPS[255 - (probability >> 8)]
        while self.range <= 0x4000:
            self.low *= 2
            self.range *= 2
            self.doublings += 1

    def unsigned(self, follow_contexts, digit_context, value):
        last = len(follow_contexts) - 1
        digits = bin(value + 1)[3:]
        for n, digit in enumerate(digits):
            self.decision(follow_contexts[min(n, last)], 0)
            self.decision(digit_context, int(digit))
        self.decision(follow_contexts[min(len(digits), last)], 1)

    def signed(self, follow_contexts, digit_context, sign_context, value):
        self.unsigned(follow_contexts, digit_context, abs(value))
        if value != 0:
            self.decision(sign_context, int(value < 0))

    def block(self):
        if self.is_empty:
            return b""
        length = decoder.divide_up(self.doublings + 2, 8)
        value = (self.low + self.range) // 2 ** (16 + self.doublings - 8 * length) - 1
        return value.to_bytes(length, "big")


# Analysis and quantising


def pad(plane, unit):
    """The plane with its last samples and its last row repeated, up to multiples of this unit."""
    width = decoder.divide_up(len(plane[0]), unit) * unit
    height = decoder.divide_up(len(plane), unit) * unit
    rows = [row + [row[-1]] * (width - len(row)) for row in plane]
    return rows + [list(rows[-1]) for _ in range(height - len(rows))]


def analyse_line(line, wavelet):
    for step in reversed(decoder.WAVELET_STEPS[wavelet]):
        line = decoder.lift(line, step, -step.sign)
    return line


def analyse_level(rows, wavelet):
    """The bands LL, HL, LH and HH of a level."""
    if decoder.WAVELET_SHIFTS[wavelet]:
        rows = [[2 * value for value in row] for row in rows]
    rows = [analyse_line(row, wavelet) for row in rows]
    rows = decoder.transpose([analyse_line(column, wavelet) for column in decoder.transpose(rows)])
    even, odd = rows[0::2], rows[1::2]
    low_low = [row[0::2] for row in even]
    high_low = [row[1::2] for row in even]
    low_high = [row[0::2] for row in odd]
    high_high = [row[1::2] for row in odd]
    return low_low, high_low, low_high, high_high


def low_low_differences(rows):
    """The last LL band's differences from their predictions."""
    places = range(len(rows[0]))
    return [[rows[y][x] - decoder.predict_low_low(rows, x, y) for x in places] for y in range(len(rows))]


def quantise(coefficient, index):
    magnitude = 4 * abs(coefficient) // decoder.quantiser_factor(index)
    return -magnitude if coefficient < 0 else magnitude


def codeblock_index(coefficients, index, finer):
    """A codeblock's index; without samples it is flat too."""
    is_flat = all(abs(coefficient) < FLAT_BELOW for coefficient in coefficients)
    return max(0, index - finer) if is_flat else index


def quantise_subband(rows, index, counts, finer):
    """The band, each codeblock quantised with its own index, also where it is skipped in the stream."""
    band = decoder.Subband(len(rows[0]), len(rows), index, [0] * (len(rows) * len(rows[0])), counts, [])
    for lines, columns in decoder.codeblocks(band.width, band.height, *counts):
        own = codeblock_index([rows[y][x] for y in lines for x in columns], index, finer)
        band.indices.append(own)
        for y in lines:
            for x in columns:
                band.values[y * band.width + x] = quantise(rows[y][x], own)
    return band


def plane_subbands(plane, settings, is_intra):
    """The quantised subbands of a plane, in the order of the stream."""
    low_low = pad(plane, 2 ** settings["depth"])
    levels = []
    for _ in range(settings["depth"]):
        low_low, *bands = analyse_level(low_low, settings["wavelet"])
        levels.insert(0, bands)
    counts, index, finer = codeblock_counts(settings), settings["index"], settings["finer"]
    if is_intra:
        bands = [quantise_subband(low_low_differences(low_low), 0, counts[0], finer)]
    else:
        bands = [quantise_subband(low_low, index, counts[0], finer)]
    for level, others in enumerate(levels, 1):
        bands += [quantise_subband(rows, index, counts[level], finer) for rows in others]
    return bands


# The plan


class Planned(NamedTuple):
    """A picture as it is coded: its number, its parse code, the numbers of its references, what it retires or None.

    Frames are planned in the same form, by the numbers of frames.
    """

    number: int
    code: int
    references: list
    retired: int


def anchor_offsets(length, between):
    """The places of the anchors in a group of so many frames."""
    offsets = [0]
    while offsets[-1] < length - 1:
        offsets.append(min(offsets[-1] + between + 1, length - 1))
    return offsets


def left_by_group_before(first, settings):
    """The frames that the group before this frame left, oldest first, where the stream is to be shown alike."""
    if settings["alike"] == 0 or first == 0:
        return []
    start = first - settings["gop"]
    anchors = [start + offset for offset in anchor_offsets(settings["gop"], settings["between"])]
    return anchors[:1] + anchors[1:][-2:]


def plan_group(first, length, settings):
    """The frames of a group in coding order."""
    anchors = [first + offset for offset in anchor_offsets(length, settings["between"])]
    has_two = settings["references"] == 2
    left = left_by_group_before(first, settings)
    planned = [Planned(first, INTRA_REFERENCE_PICTURE, [], left.pop(0) if left else None)]
    for k in range(1, len(anchors)):
        references = [anchors[k - 1]]
        if has_two and k >= 2:
            references.append(anchors[0])
        if k >= 3:
            retired = anchors[k - 2]
        else:
            retired = left.pop(0) if left else None
        planned.append(Planned(anchors[k], INTER_REFERENCE_PICTURES[len(references)], references, retired))
        references = [anchors[k - 1], anchors[k]] if has_two else [anchors[k - 1]]
        for number in range(anchors[k - 1] + 1, anchors[k]):
            planned.append(Planned(number, INTER_PICTURES[len(references)], references, None))
    return planned


def fields_of(frame, count):
    """The fields of a planned frame in order, where there are so many fields at all."""
    first = 2 * frame.number
    planned = []
    for parity in range(min(2, count - first)):
        code, references = frame.code, [2 * number + parity for number in frame.references]
        if parity == 1 and frame.code == INTRA_REFERENCE_PICTURE:
            code, references = INTER_REFERENCE_PICTURES[1], [first]
        # a reference to a second field that isn't there is to the first one of its frame
        references = [number if number < count else number - 1 for number in references]
        retired = None if frame.retired is None else 2 * frame.retired + parity
        planned.append(Planned(first + parity, code, references, retired))
    return planned


def plan(count, settings):
    """So many pictures in coding order; they are frames, or with `fields` the fields of frames."""
    frame_count = decoder.divide_up(count, 2) if settings["fields"] else count
    frames = []
    for first in range(0, frame_count, settings["gop"]):
        frames += plan_group(first, min(settings["gop"], frame_count - first), settings)
    if not settings["fields"]:
        return frames
    return [field for frame in frames for field in fields_of(frame, count)]


# The search


def half_plane(plane):
    """The plane with half its columns and rows, rounded up."""
    width, height = decoder.divide_up(len(plane[0]), 2), decoder.divide_up(len(plane), 2)

    def sample(x, y):
        total = 2
        for row, column in ((2 * y, 2 * x), (2 * y, 2 * x + 1), (2 * y + 1, 2 * x), (2 * y + 1, 2 * x + 1)):
            total += decoder.clamped_sample(plane, column, row)
        return total >> 2

    return [[sample(x, y) for x in range(width)] for y in range(height)]


def pyramid(plane, levels):
    """The plane and so many levels above it."""
    planes = [plane]
    for _ in range(levels):
        planes.append(half_plane(planes[-1]))
    return planes


class Grid(NamedTuple):
    """Blocks across and down, and their separations in luma samples."""

    across: int
    down: int
    xbsep: int
    ybsep: int

    def places(self):
        return [(i, j) for j in range(self.down) for i in range(self.across)]

    def window(self, i, j, level=0):
        """Columns and rows of a block's window at a level of the pyramid."""
        left, top = (i * self.xbsep) >> level, (j * self.ybsep) >> level
        columns, rows = max(1, self.xbsep >> level), max(1, self.ybsep >> level)
        return range(left, left + columns), range(top, top + rows)


def block_grid(settings):
    _, separation = decoder.BLOCK_PRESETS[settings["blocks"]]
    across = 4 * decoder.divide_up(settings["width"], 4 * separation)
    down = 4 * decoder.divide_up(picture_height(settings), 4 * separation)
    return Grid(across, down, separation, separation)


def window_distortion(source, window, reference_sample):
    """The sum of absolute differences of a window, from samples of the reference by column and row."""
    columns, rows = window
    return sum(abs(decoder.clamped_sample(source, x, y) - reference_sample(x, y)) for y in rows for x in columns)


def vector_bits(vector):
    return signed_bits(vector[0]) + signed_bits(vector[1])


def first_of_least(candidates, cost):
    """The first candidate whose cost is the least, and that cost."""
    costs = [cost(candidate) for candidate in candidates]
    least = min(costs)
    return candidates[costs.index(least)], least


def around(centre, distance):
    """The vectors around a centre, by rows."""
    reach = range(-distance, distance + 1)
    return [(centre[0] + x, centre[1] + y) for y in reach for x in reach]


def twice(vector):
    return 2 * vector[0], 2 * vector[1]


def keeps_inside_along(positions, vector, precision, length):
    """Whether a component of a vector takes no sample outside of a line from these positions in it."""
    for position in positions:
        place = (position << precision) + vector
        if precision == 0:
            if not 0 <= place <= length - 1:
                return False
        else:
            one = 2 ** (precision - 1)
            half, rest = place // one, place % one
            if half < 0 or half + (rest != 0) > 2 * length - 2:
                return False
    return True


def keeps_inside(settings, place, vector, precision):
    """Whether a vector takes no sample outside of any plane for a block."""
    length, separation = decoder.BLOCK_PRESETS[settings["blocks"]]
    for n, size in enumerate(decoder.plane_sizes(sequence_of(settings))):
        ratios = decoder.CHROMA_RATIOS[settings["chroma"]] if n > 0 else (1, 1)
        lines = []
        for block, ratio, limit in zip(place, ratios, size):
            first = block * (separation // ratio) - (length - separation) // ratio // 2
            lines.append(range(max(first, 0), min(first + length // ratio, limit)))
        if any(len(line) == 0 for line in lines):
            continue
        for line, component, ratio, limit in zip(lines, vector, ratios, size):
            if not keeps_inside_along(line, component // ratio, precision, limit):
                return False
    return True


class Search:
    """The search for the vectors of all blocks to one reference, stage by stage."""

    def __init__(self, settings, source, reference):
        self.settings = settings
        self.grid = block_grid(settings)
        self.sources = pyramid(source, settings["pyramid"])
        self.references = pyramid(reference, settings["pyramid"])
        self.reference = decoder.Reference(reference, decoder.upconvert(reference))
        self.known_samples = {}

    def sub_sample(self, precision, vector, x, y):
        place = (precision, (x << precision) + vector[0], (y << precision) + vector[1])
        if place not in self.known_samples:
            self.known_samples[place] = decoder.sub_sample(*self.reference, *place)
        return self.known_samples[place]

    def whole_cost(self, level, place, vector):
        plane = self.references[level]

        def sample(x, y):
            return decoder.clamped_sample(plane, x + vector[0], y + vector[1])

        distortion = window_distortion(self.sources[level], self.grid.window(*place, level), sample)
        return distortion + self.settings["bias"] * vector_bits(vector)

    def sub_cost(self, precision, place, vector):
        def sample(x, y):
            return self.sub_sample(precision, vector, x, y)

        distortion = window_distortion(self.sources[0], self.grid.window(*place), sample)
        return distortion + self.settings["bias"] * vector_bits(vector)

    def counting(self, candidates, place, precision, level=0):
        """Those of the candidates of a block that count."""
        if self.settings["alike"] == 0:
            return candidates
        one = 2**level
        inside = {
            vector: keeps_inside(self.settings, place, (one * vector[0], one * vector[1]), precision)
            for vector in set(candidates)
        }
        return [vector for vector in candidates if inside[vector]]

    def coarse(self):
        candidates = [(0, 0)] + around((0, 0), self.settings["range"])
        level = self.settings["pyramid"]
        return {
            place: first_of_least(
                self.counting(candidates, place, 0, level), lambda vector: self.whole_cost(level, place, vector)
            )[0]
            for place in self.grid.places()
        }

    def finer(self, level, before):
        vectors = {}
        for i, j in self.grid.places():
            candidates = [(0, 0)]
            for place in ((i, j), (i - 1, j), (i + 1, j), (i, j - 1), (i, j + 1)):
                if place in before:
                    candidates += around(twice(before[place]), 1)
            candidates = self.counting(candidates, (i, j), 0, level)
            vectors[i, j], _ = first_of_least(candidates, lambda vector: self.whole_cost(level, (i, j), vector))
        return vectors

    def sub(self, precision, before):
        vectors = {}
        for place in self.grid.places():
            centre = twice(before[place])
            candidates = self.counting([(0, 0), centre] + around(centre, 1), place, precision)
            vectors[place], _ = first_of_least(candidates, lambda vector: self.sub_cost(precision, place, vector))
        return vectors

    def vectors(self):
        """The final vector of each block."""
        vectors = self.coarse()
        for level in reversed(range(self.settings["pyramid"])):
            vectors = self.finer(level, vectors)
        for precision in range(1, self.settings["precision"] + 1):
            vectors = self.sub(precision, vectors)
        return vectors


# Modes and splits


class Mode(NamedTuple):
    """What a unit uses: a vector for each reference or None, and DC values where it uses none."""

    vectors: tuple
    dc_values: tuple


class Decision:
    """The choice of modes and splits for a picture."""

    def __init__(self, settings, source_planes, searches):
        self.settings = settings
        self.planes = source_planes
        self.searches = searches
        self.fields = [search.vectors() for search in searches]
        self.grid = block_grid(settings)

    def blocks_of(self, unit):
        places = range(unit.size)
        return [(unit.x + x, unit.y + y) for y in places for x in places]

    def distortion(self, unit, sample):
        windows = [self.grid.window(*place) for place in self.blocks_of(unit)]
        return sum(window_distortion(self.planes[0], window, sample) for window in windows)

    def best_vector(self, unit, reference):
        """The first of the blocks' vectors whose cost over the unit is the least, and that cost."""
        search, precision = self.searches[reference], self.settings["precision"]

        def cost(vector):
            distortion = self.distortion(unit, lambda x, y: search.sub_sample(precision, vector, x, y))
            return distortion + self.settings["bias"] * vector_bits(vector)

        places = self.blocks_of(unit)
        candidates = [self.fields[reference][place] for place in places]
        if self.settings["alike"] == 1:
            candidates = [
                vector
                for vector in candidates
                if all(keeps_inside(self.settings, place, vector, precision) for place in places)
            ] or [(0, 0)]
        return first_of_least(candidates, cost)

    def dc_value(self, unit, plane):
        across, down = decoder.CHROMA_RATIOS[self.settings["chroma"]] if plane > 0 else (1, 1)
        width, height = self.grid.xbsep // across, self.grid.ybsep // down
        columns = range(unit.x * width, (unit.x + unit.size) * width)
        rows = range(unit.y * height, (unit.y + unit.size) * height)
        samples = [decoder.clamped_sample(self.planes[plane], x, y) for y in rows for x in columns]
        return (2 * sum(samples) + len(samples)) // (2 * len(samples))

    def unit_mode(self, unit):
        """The first mode of least cost, and that cost."""
        bias, precision = self.settings["bias"], self.settings["precision"]
        best = [self.best_vector(unit, reference) for reference in range(len(self.searches))]
        modes = [(Mode((best[0][0], None), (0, 0, 0)), best[0][1])]
        if len(best) == 2:
            first, second = best[0][0], best[1][0]
            modes.append((Mode((None, second), (0, 0, 0)), best[1][1]))

            def mean(x, y):
                one = self.searches[0].sub_sample(precision, first, x, y)
                other = self.searches[1].sub_sample(precision, second, x, y)
                return (one + other + 1) >> 1

            cost = self.distortion(unit, mean) + bias * (vector_bits(first) + vector_bits(second))
            modes.append((Mode((first, second), (0, 0, 0)), cost))
        values = tuple(self.dc_value(unit, plane) for plane in range(3))
        cost = self.distortion(unit, lambda x, y: values[0]) + bias * sum(map(signed_bits, values))
        modes.append((Mode((None, None), values), cost))
        return first_of_least(modes, lambda mode: mode[1])[0]

    def superblock(self, x, y):
        """The split, and the modes of its units."""
        choices = []
        for split in range(3):
            units = decoder.prediction_units({(x, y): split})
            modes = [self.unit_mode(unit) for unit in units]
            choices.append((split, [mode for mode, _ in modes], sum(cost for _, cost in modes)))
        split, modes, _ = first_of_least(choices, lambda choice: choice[2])[0]
        return split, modes

    def table(self):
        """The split of each superblock, and each prediction unit with its mode, in the order of the stream."""
        splits, modes = {}, []
        for y in range(self.grid.down // 4):
            for x in range(self.grid.across // 4):
                splits[x, y], unit_modes = self.superblock(x, y)
                modes += unit_modes
        return splits, list(zip(decoder.prediction_units(splits), modes))


# Block tables


def write_block(writer, encoder):
    block = encoder.block()
    writer.align().unsigned(len(block)).align().bytes(block)


def write_splits(writer, splits):
    encoder = ArithmeticEncoder()
    for (x, y), split in splits.items():
        predicted = decoder.corner_prediction(splits, x, y, decoder.mean_of_three)
        encoder.unsigned(decoder.SPLIT_FOLLOW, decoder.SPLIT_DIGITS, (split - predicted) % 3)
    write_block(writer, encoder)


def write_reference_bits(writer, units, reference_count):
    """Writes them, and gives the tables of which block uses which reference."""
    encoder = ArithmeticEncoder()
    uses = [{}, {}]
    for unit, mode in units:
        for reference in range(2):
            value = int(mode.vectors[reference] is not None)
            if reference < reference_count:
                predicted = decoder.corner_prediction(uses[reference], unit.x, unit.y, decoder.majority)
                encoder.decision(decoder.REFERENCE_BITS[reference], value ^ predicted)
            unit.fill(uses[reference], value)
    write_block(writer, encoder)
    return uses


def write_vectors(writer, units, uses, reference, component):
    encoder = ArithmeticEncoder()
    values = {}
    for unit, mode in units:
        value = 0
        if mode.vectors[reference] is not None:
            value = mode.vectors[reference][component]
            near = [values[place] for place in unit.neighbours() if uses[reference][place]]
            difference = value - decoder.predict_vector(near)
            encoder.signed(decoder.VECTOR_FOLLOW, decoder.VECTOR_DIGITS, decoder.VECTOR_SIGN, difference)
        unit.fill(values, value)
    write_block(writer, encoder)


def write_dc_values(writer, units, uses, plane):
    encoder = ArithmeticEncoder()
    values = {}
    for unit, mode in units:
        value = 0
        if mode.vectors == (None, None):
            value = mode.dc_values[plane]
            near = [values[place] for place in unit.neighbours() if not uses[0][place] and not uses[1][place]]
            difference = value - decoder.predict_dc_value(near)
            encoder.signed(decoder.DC_FOLLOW, decoder.DC_DIGITS, decoder.DC_SIGN, difference)
        unit.fill(values, value)
    write_block(writer, encoder)


def write_block_tables(writer, splits, units, reference_count):
    writer.align()
    write_splits(writer, splits)
    uses = write_reference_bits(writer, units, reference_count)
    for reference in range(reference_count):
        for component in range(2):
            write_vectors(writer, units, uses, reference, component)
    for plane in range(3):
        write_dc_values(writer, units, uses, plane)


# Payloads


def write_subband(writer, orientation, band, mode, parent):
    writer.align()
    if not any(band.values):
        writer.unsigned(0)
        return
    encoder = ArithmeticEncoder()
    index = band.index
    for (rows, columns), own in zip(decoder.codeblocks(band.width, band.height, *band.counts), band.indices):
        if band.counts != (1, 1):
            is_zero = all(band.value(x, y) == 0 for y in rows for x in columns)
            encoder.decision(decoder.CODEBLOCK_ZERO, int(is_zero))
            if is_zero:
                continue
        if mode == 1:
            encoder.signed(decoder.OFFSET_FOLLOW, decoder.OFFSET_DIGITS, decoder.OFFSET_SIGN, own - index)
            index = own
        for y in rows:
            for x in columns:
                follow, sign = decoder.coefficient_contexts(orientation, band, parent, x, y)
                encoder.signed(follow, decoder.COEFFICIENT_DIGITS, sign, band.value(x, y))
    block = encoder.block()
    writer.unsigned(len(block)).unsigned(band.index).align().bytes(block)


def sequence_header(settings):
    base = decoder.BASE_FORMATS[settings["base"]]
    width, height = settings["width"], settings["height"]
    has_own_size = (width, height) != (base.width, base.height)
    writer = BitWriter().unsigned(2).unsigned(2)
    writer.unsigned(settings["profile"]).unsigned(settings["level"]).unsigned(settings["base"])
    writer.flag(has_own_size)
    if has_own_size:
        writer.unsigned(width).unsigned(height)
    write_custom(writer, settings["chroma"], base.chroma)
    writer.flag(0)
    write_custom(writer, settings["rate"], base.rate)
    writer.flag(0)
    writer.flag(has_own_size)
    if has_own_size:
        writer.unsigned(width).unsigned(height).unsigned(0).unsigned(0)
    write_custom(writer, settings["signal"], base.signal)
    writer.flag(0)
    return writer.unsigned(settings["fields"]).payload()


def write_custom(writer, value, base_value):
    """A custom flag, and the value where it isn't the base's."""
    writer.flag(value != base_value)
    if value != base_value:
        writer.unsigned(value)


def picture_height(settings):
    """The rows of a picture: half a frame's where it is a field."""
    return settings["height"] // 2 if settings["fields"] else settings["height"]


def sequence_of(settings):
    return decoder.Sequence(settings["width"], picture_height(settings), settings["chroma"])


def codeblock_counts(settings):
    """The counts across and down of each level."""
    depth, most = settings["depth"], settings["codeblocks"]
    counts = [(1, 1)]
    for level in range(1, depth + 1):
        columns = decoder.subband_length(settings["width"], depth, level)
        rows = decoder.subband_length(picture_height(settings), depth, level)
        counts.append((min(most, columns), min(most, rows)))
    return counts


def write_residual(writer, settings, planes, is_intra):
    """Transform parameters and subbands; in an inter picture behind the zero residual flag."""
    subbands = [plane_subbands(plane, settings, is_intra) for plane in planes]
    if not is_intra:
        is_zero = settings["alike"] == 0 and not any(any(band.values) for bands in subbands for band in bands)
        writer.flag(is_zero)
        if is_zero:
            return
    writer.unsigned(settings["wavelet"]).unsigned(settings["depth"])
    counts = codeblock_counts(settings)
    mode = int(settings["finer"] > 0)
    is_partitioned = mode == 1 or any(count != (1, 1) for count in counts)
    writer.flag(is_partitioned)
    if is_partitioned:
        for across, down in counts:
            writer.unsigned(across).unsigned(down)
        writer.unsigned(mode)
    for bands in subbands:
        for position, band in enumerate(bands):
            level, orientation = decoder.subband_kind(position)
            parent = bands[position - 3] if level >= 2 else None
            write_subband(writer, orientation, band, mode, parent)


def offset_from(number, other):
    """What is added to a number to get another one, modulo 2^32."""
    return (other - number + 2**31) % 2**32 - 2**31


def write_picture_header(writer, planned):
    writer.bytes(planned.number.to_bytes(4, "big"))
    for reference in planned.references:
        writer.signed(offset_from(planned.number, reference))
    if planned.code in decoder.REFERENCE_PICTURES:
        writer.signed(0 if planned.retired is None else offset_from(planned.number, planned.retired))


def predicted_planes(settings, splits, units, references):
    """What the decoder predicts of these blocks."""
    uses, vectors = [{}, {}], [({}, {}), ({}, {})]
    dc_values = [{}, {}, {}]
    for unit, mode in units:
        for reference in range(2):
            unit.fill(uses[reference], int(mode.vectors[reference] is not None))
            for component in range(2):
                vector = mode.vectors[reference] or (0, 0)
                unit.fill(vectors[reference][component], vector[component])
        for plane in range(3):
            unit.fill(dc_values[plane], mode.dc_values[plane])
    grid = block_grid(settings)
    tables = decoder.BlockTables(grid.across, grid.down, uses, vectors, dc_values)
    length, separation = decoder.BLOCK_PRESETS[settings["blocks"]]
    lengths = (length, length, separation, separation)
    parameters = decoder.PredictionParameters(*lengths, settings["precision"], 1, (1, 1))
    sizes = decoder.plane_sizes(sequence_of(settings))
    planes = []
    for n, size in enumerate(sizes):
        reference_planes = [reference.planes[n] for reference in references]
        prediction = decoder.PlanePrediction(parameters, tables, reference_planes, n, settings["chroma"], size)
        planes.append(prediction.rows())
    return planes


def subtract_planes(left, right):
    return [[a - b for a, b in zip(*rows)] for rows in zip(left, right)]


def picture_payload(settings, planned, planes, references):
    """The payload of a picture; references are the pictures that it refers to, in order."""
    writer = BitWriter()
    write_picture_header(writer, planned)
    writer.align()
    if references:
        searches = [Search(settings, planes[0], reference.planes[0]) for reference in references]
        splits, units = Decision(settings, planes, searches).table()
        # no global motion, prediction mode 0, no custom weights
        writer.unsigned(settings["blocks"]).unsigned(settings["precision"]).flag(0).unsigned(0).flag(0)
        write_block_tables(writer, splits, units, len(references))
        writer.align()
        predictions = predicted_planes(settings, splits, units, references)
        planes = [subtract_planes(*pair) for pair in zip(planes, predictions)]
    write_residual(writer, settings, planes, is_intra=not references)
    return writer.align().payload()


# Streams


def raw_planes(raw, sizes):
    """The planes of a raw picture, as rows of samples."""
    planes = []
    place = 0
    for width, height in sizes:
        starts = range(place, place + width * height, width)
        planes.append([[value - 128 for value in raw[start : start + width]] for start in starts])
        place += width * height
    return planes


def unit(code, previous_offset, payload, next_offset=None):
    """A unit; its next offset is its length where none is given."""
    if next_offset is None:
        next_offset = decoder.PARSE_INFO_LENGTH + len(payload)
    offsets = next_offset.to_bytes(4, "big") + previous_offset.to_bytes(4, "big")
    return b"BBCD" + bytes([code]) + offsets + payload


class StreamWriter:
    """Appends units, each with the length of the one before."""

    def __init__(self):
        self.stream = b""
        self.previous_offset = 0

    def add(self, code, payload, next_offset=None):
        piece = unit(code, self.previous_offset, payload, next_offset)
        self.stream += piece
        self.previous_offset = len(piece)


class Encoded(NamedTuple):
    """The stream, the pictures that decoders will show, and the answer."""

    stream: bytes
    shown: bytes
    status: int
    text: str


class PictureCoder:
    """Codes pictures in coding order, and keeps what a decoder of them keeps."""

    def __init__(self, settings):
        self.settings = settings
        self.sequence = sequence_of(settings)
        self.references = []
        self.delivery = decoder.Delivery()

    def payload(self, planned, planes):
        used = [decoder.find_reference(self.references, number) for number in planned.references]
        return picture_payload(self.settings, planned, planes, used)

    def take(self, planned, payload):
        """What a decoder does with the payload."""
        picture, retired = decoder.decode_picture(planned.code, self.sequence, self.references, payload)
        if retired is not None:
            self.references = [listed for listed in self.references if listed.number != retired]
        if planned.code in decoder.REFERENCE_PICTURES:
            self.references = decoder.list_reference(self.references, picture)
        self.delivery.add(picture)


def encode(settings, data):
    sizes = decoder.plane_sizes(sequence_of(settings))
    length = sum(width * height for width, height in sizes)
    whole = len(data) // length
    writer = StreamWriter()
    header = sequence_header(settings)
    coder = PictureCoder(settings)
    for planned in plan(min(whole, settings["pictures"]), settings):
        raw = data[planned.number * length : (planned.number + 1) * length]
        payload = coder.payload(planned, raw_planes(raw, sizes))
        if not planned.references:
            writer.add(decoder.SEQUENCE_HEADER, header)
        if decoder.PARSE_INFO_LENGTH + len(payload) > settings["unit_bytes"]:
            text = f"unit too long: picture {planned.number}\n"
            return Encoded(writer.stream, b"".join(coder.delivery.delivered), UNIT_TOO_LONG, text)
        writer.add(planned.code, payload)
        coder.take(planned, payload)
    if writer.stream == b"":
        writer.add(decoder.SEQUENCE_HEADER, header)
    writer.add(decoder.END_OF_SEQUENCE, b"", 0)
    coder.delivery.end_sequence()
    status, text = 0, ""
    if whole > settings["pictures"]:
        status, text = TOO_MANY_PICTURES, "too many pictures\n"
    elif len(data) % length != 0:
        status, text = PARTIAL_PICTURE, f"partial picture: {len(data) % length} bytes\n"
    return Encoded(writer.stream, b"".join(coder.delivery.delivered), status, text)


# The pictures of `make`


def generated_picture(settings, number):
    """A raw picture: each byte is made of its plane, its place and the picture's number."""
    raw = bytearray()
    for plane, (width, height) in enumerate(decoder.plane_sizes(sequence_of(settings))):
        for y in range(height):
            for x in range(width):
                raw.append((3 * (x + 2 * number) + 5 * (y + number) + 40 * plane) % 256)
    return bytes(raw)


def make(settings, count):
    """The line of `make`, as the stream; empty where the answer isn't done."""
    pictures = [generated_picture(settings, number) for number in range(count)]
    raw = b"".join(pictures)
    encoded = encode(settings, raw)
    if encoded.status != 0:
        return Encoded(b"", b"", encoded.status, encoded.text)
    length = len(raw) // count if count else 1
    exact = sum(encoded.shown[n * length : (n + 1) * length] == pictures[n] for n in range(count))
    line = f"pictures={count} stream={len(encoded.stream)} raw={len(raw)} exact={exact}\n"
    return Encoded(line.encode(), b"", 0, "")
