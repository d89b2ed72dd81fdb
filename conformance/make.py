#!/usr/bin/env python3
"""Makes the streams of this folder, each by the function of its name below.

make.py                 writes streams/NAME.drc for each of them, and the table of README.md
make.py --compare       writes nothing; ends with 1 where a file or the table isn't what would be written

Python's std alone. What the streams decode to is not known here: expect.py asks the plain decoder.
"""
import pathlib
import sys

sys.dont_write_bytecode = True

from writer import (
    AUXILIARY,
    END_OF_SEQUENCE,
    INTER_1,
    INTER_1_UNLISTED,
    INTER_2,
    INTER_2_UNLISTED,
    INTRA,
    INTRA_UNLISTED,
    OFFSET_NUMBERS,
    PADDING,
    SEQUENCE_HEADER,
    Arithmetic,
    Bits,
    Block,
    Motion,
    Noise,
    Residual,
    Stream,
    band_length,
    picture_header,
    sequence_header,
)

FOLDER = pathlib.Path(__file__).resolve().parent
TABLE_BEGIN, TABLE_END = "<!-- table of streams: written by make.py -->\n", "<!-- end of the table -->\n"
STREAMS = {}


def stream(make):
    """Registers a stream: its function, and what it has by the function's docstring."""
    STREAMS[make.__name__] = make
    return make


def stream_of_each(name, what, variants):
    """Registers a stream for each variant of a function."""

    def register(make):
        for variant in variants:
            one = lambda variant=variant: make(variant)
            one.__doc__ = what.format(variant)
            STREAMS[name.format(variant)] = one

    return register


# Contents


def noise(seed, wavelet=0, depth=2, counts=None, zeros=4, most=9, finest=8, empty=()):
    """A residual of noise; the bands in `empty` (plane, level, kind) have length 0."""
    source = Noise(seed)

    def rows(plane, level, kind, width, height):
        if (plane, level, kind) in empty:
            return None
        here = max(zeros - 2, 0) if level == 0 else zeros
        return [[source.coefficient(most, here) for _ in range(width)] for _ in range(height)]

    def index(plane, level, kind):
        return finest + 3 * (depth - level) + plane + {"LL": 4, "HL": 0, "LH": 1, "HH": 3}[kind]

    return Residual(rows, index, wavelet, depth, counts)


def grey(depth=1):
    """All bands have length 0."""
    return Residual(lambda *_: None, None, 0, depth)


def flat(level, depth=1):
    """One luma value in the LL band, so the picture is nearly flat."""

    def rows(plane, band_level, kind, width, height):
        if plane > 0 or band_level > 0:
            return None
        return [[level if x == y == 0 else 0 for x in range(width)] for y in range(height)]

    return Residual(rows, lambda *_: 0, 1, depth)


def mixed_motion(seed, references, reach=24, dc=60, kinds=None, precision=2, **parameters):
    """Blocks of all kinds and splits: vectors up to `reach` that stay inside of the reference, DC values up to `dc`."""
    source = Noise(seed)

    def split(x, y):
        return source.below(3)

    def component(back, forth):
        lowest = -min(reach, back << precision)
        return source.between(lowest, max(lowest, min(reach, forth << precision)))

    def vector(room):
        return (component(*room[:2]), component(*room[2:]))

    def block(place, room):
        kind = source.below(4) if kinds is None else kinds[source.below(len(kinds))]
        if kind == 0:
            return Block(dc=tuple(source.between(-dc, dc) for _ in range(3)))
        if references == 1 or kind == 1:
            return Block(vector(room))
        return Block(None, vector(room)) if kind == 2 else Block(vector(room), vector(room))

    return Motion(split, block, precision=precision, **parameters)


def faint(seed, wavelet=1):
    """A residual with few values."""
    return noise(seed, wavelet, zeros=7)


def two_anchors(size=(52, 36), chroma=2):
    """A sequence with pictures 0 and 4, both references."""
    opened = Stream().sequence(size, chroma)
    opened.intra(0, noise(1, wavelet=1, depth=3, most=12, finest=8))
    return opened.intra(4, noise(2, wavelet=0, depth=3, most=12, finest=8))


def one_anchor(size=(52, 36), chroma=2):
    """A sequence with picture 0, a reference."""
    return Stream().sequence(size, chroma).intra(0, noise(3, wavelet=1, depth=3, most=12, finest=8))


def small():
    """A sequence of 8 by 8 with one picture."""
    return Stream().sequence((8, 8)).intra(0, noise(4, depth=1))


# Transform


@stream_of_each("wavelet_{}", "wavelet {}, depth 3, 4:2:0, 44 by 36 (padded to 48 by 40), one intra picture", range(7))
def wavelet(number):
    return Stream().sequence((44, 36)).intra(0, noise(10 + number, number, 3)).end()


@stream
def depths():
    """transform depths 1 to 5, 4:2:0, 36 by 26 (padded), an intra picture each"""
    made = Stream().sequence((36, 26))
    for depth in range(1, 6):
        made.intra(depth, noise(20 + depth, depth, depth, zeros=5))
    return made.end()


@stream
def chroma_444():
    """4:4:4, 29 by 23, depth 2, wavelet 0 and wavelet 5: two intra pictures"""
    made = Stream().sequence((29, 23), 0)
    return made.intra(0, noise(30, 0)).intra(1, noise(31, 5)).end()


@stream
def chroma_422():
    """4:2:2, 30 by 23, depth 2, wavelet 2 and wavelet 6: two intra pictures"""
    made = Stream().sequence((30, 23), 1)
    return made.intra(0, noise(32, 2)).intra(1, noise(33, 6)).end()


@stream
def quantiser_indices():
    """quantiser indices 0 to 99, one a band, of values from -5 to 5: five intra pictures of 16 by 16, 4:4:4, wavelet 3
    """
    made = Stream().sequence((16, 16), 0)
    bands_of_a_picture = 21
    for number in range(5):
        source = Noise(40 + number)
        indices = iter(range(bands_of_a_picture * number, 100))

        def rows(plane, level, kind, width, height, source=source):
            return [[source.between(-5, 5) for _ in range(width)] for _ in range(height)]

        made.intra(number, Residual(rows, lambda *_, indices=indices: next(indices, 0), 3, 2))
    return made.end()


@stream
def coefficients_up_to_the_longest():
    """coefficients of 1 to 38 digits, both signs, up to 2^39 - 2: two intra pictures of 16 by 16, 4:4:4, clipped"""
    made = Stream().sequence((16, 16), 0)
    for number, wavelet_index in enumerate((1, 3)):
        source = Noise(50 + number)

        def rows(plane, level, kind, width, height, source=source):
            values = [[0] * width for _ in range(height)]
            for _ in range(width * height // 2):
                value = 2 ** source.between(1, 39) - source.between(2, 3)
                values[source.below(height)][source.below(width)] = value if source.below(2) else -max(value, 1)
            return values

        made.intra(number, Residual(rows, lambda *_: 0, wavelet_index, 2))
    return made.end()


@stream
def codeblocks():
    """codeblocks at every level, counts 3 2, 5 1, 2 4, that don't divide the bands; some of zeros; 46 by 38, 4:2:2"""
    counts = [(3, 2), (5, 1), (2, 4)]
    made = Stream().sequence((46, 38), 1)
    return made.intra(0, noise(60, 0, 2, counts, zeros=7)).intra(1, noise(61, 4, 2, counts)).end()


@stream
def codeblocks_without_values():
    """as many codeblocks as the luma bands have columns and rows, so that some of chroma hold none; 14 by 10, 4:2:0"""
    size, depth_ = (14, 10), 2
    counts = [tuple(band_length(length, depth_, level) for length in size) for level in range(depth_ + 1)]
    return Stream().sequence(size).intra(0, noise(62, 1, depth_, counts)).end()


def indices_of(seed, lowest=0, highest=99, kept=3):
    """Indices for codeblocks of mode 1: `kept` of 8 codeblocks keep the one before."""
    source = Noise(seed)

    def indices(plane, level, kind, index):
        while True:
            yield None if source.below(8) < kept else source.between(lowest, highest)

    return indices


def with_indices(residual, indices, counts=None):
    """The residual in codeblock mode 1, with these indices of its codeblocks."""
    residual.mode, residual.indices = 1, indices
    residual.counts = residual.counts or counts or [(1, 1)] * (residual.depth + 1)
    return residual


@stream
def codeblock_indices():
    """codeblock mode 1: codeblocks at every level, counts 3 2, 5 1, 2 4, of indices 0 to 40 of their own; some skipped,
    some of zeros that have an offset all the same; two intra pictures of 46 by 38, 4:2:2
    """
    counts = [(3, 2), (5, 1), (2, 4)]
    made = Stream().sequence((46, 38), 1)
    made.intra(0, with_indices(noise(64, 0, 2, counts, zeros=7), indices_of(65, highest=40)))
    return made.intra(1, with_indices(noise(66, 4, 2, counts), indices_of(67, highest=40))).end()


@stream
def codeblock_indices_at_the_ends():
    """codeblock mode 1: indices from 0 to 99 and from 99 to 0 and others between; codeblocks that are skipped or whose
    offset is 0 keep the one before; two intra pictures of 48 by 48, 4:4:4, wavelet 3, depth 1, counts 4 4
    """
    ends = (99, None, 0, 99, 98, 0, 1, None, None, 12, 11, 13, 99, None, 0, 2)
    lowest = (0, 1, 2, 3, None, 5, 6, 7, 8, None, None, 3, 2, 1, 0, 9)

    def indices(plane, level, kind, index):
        return iter(lowest if level == 0 else ends[4 * plane :] + ends[: 4 * plane])

    made = Stream().sequence((48, 48), 0)
    for number in range(2):
        source = Noise(68 + number)

        def rows(plane, level, kind, width, height, source=source, number=number):
            values = [[0] * width for _ in range(height)]
            index = 0
            for n, wanted in enumerate(indices(plane, level, kind, 0)):
                index = index if wanted is None else wanted
                if wanted is None and number == 0:
                    continue
                # where the factor is large a single value, since it is clipped
                count = 1 if index > 20 else 40
                for _ in range(count):
                    y = n // 4 * (height // 4) + source.below(height // 4)
                    x = n % 4 * (width // 4) + source.below(width // 4)
                    values[y][x] = source.between(-5, 5)
            return values

        made.intra(number, Residual(rows, lambda plane, *_: 33 * plane, 3, 1, 2 * [(4, 4)], 1, indices))
    return made.end()


@stream
def codeblock_indices_without_flags():
    """codeblock mode 1 where all counts are 1: each band has an offset and no zero flag, also one of zeros; three
    intra pictures of 22 by 18, 4:2:0
    """
    made = Stream().sequence((22, 18))
    made.intra(0, with_indices(noise(73, 0), indices_of(74, highest=30, kept=0)))
    made.intra(1, with_indices(noise(75, 5, 3), indices_of(76, highest=30, kept=8)))
    zeros = lambda plane, level, kind, width, height: [[0] * width for _ in range(height)]
    return made.intra(2, with_indices(Residual(zeros, lambda *_: 20, 1, 1), indices_of(77))).end()


@stream
def codeblock_indices_without_values():
    """codeblock mode 1: codeblocks that hold no value, skipped ones and others, which have an offset; 14 by 10, 4:2:0
    """
    size, depth_ = (14, 10), 2
    counts = [tuple(band_length(length, depth_, level) for length in size) for level in range(depth_ + 1)]
    made = Stream().sequence(size)
    return made.intra(0, with_indices(noise(78, 1, depth_, counts), indices_of(79, highest=30, kept=4))).end()


@stream
def bands_of_zeros():
    """bands of length 0 beside others; bands whose values are zeros but the 301st and the last one, so that contexts
    come to their ends; bands whose block holds zeros alone; a picture with no band: four intra pictures of 128 by
    96, 4:2:0
    """
    made = Stream().sequence((128, 96))
    empty = [(0, 0, "LL"), (0, 2, "HL"), (1, 1, "LH"), (2, 0, "LL"), (2, 2, "HH")]
    made.intra(0, noise(63, 0, 2, zeros=7, empty=empty))
    for number, last in ((1, -7), (2, 0)):

        def rows(plane, level, kind, width, height, last=last):
            values = [[0] * width for _ in range(height)]
            for n in (300, width * height - 1):
                if n < width * height:
                    values[n // width][n % width] = last
            return values

        made.intra(number, Residual(rows, lambda *_: 7, 0, 2))
    return made.intra(3, grey(2)).end()


@stream
def gaps_and_leftovers():
    """what aligning skips is ones, and bytes stand behind the last field of each payload; 4:2:0, intra and inter"""
    made = Stream().sequence((20, 16), behind=b"\x00\xff")
    made.intra(0, noise(64), gap=1, behind=b"BBCD\x10")
    made.inter(INTER_1, 1, (-1,), mixed_motion(65, 1), faint(66), gap=1, behind=b"\xff")
    return made.inter(INTER_1, 2, (-1,), mixed_motion(67, 1), faint(68), gap=1, behind=bytes(5)).end()


@stream
def sizes():
    """nine sequences of one intra picture: 1 by 1, 7 by 5, 1 by 9 (4:4:4), 2 by 1, 6 by 3 (4:2:2), 2 by 2, 6 by 10
    (4:2:0), the widest, the highest
    """
    made = Stream()
    widest = [((4096, 2), 2), ((2, 2304), 2)]
    kinds = [((1, 1), 0), ((7, 5), 0), ((1, 9), 0), ((2, 1), 1), ((6, 3), 1), ((2, 2), 2), ((6, 10), 2), *widest]
    for n, (size, chroma) in enumerate(kinds):
        made.sequence(size, chroma)
        made.intra(n, flat(300, 5) if max(size) > 99 else noise(70 + n, n % 7, 1 + n % 5)).end()
    return made


# Sequence headers


@stream
def base_formats():
    """all base video formats: 1 and 2 with no custom flag (176 by 120, 176 by 144), each other one with a size of its
    own, its chroma format, and from 7 on a signal range of 8 bits; a sequence of one intra picture each
    """
    made = Stream()
    chroma_formats = 7 * [2] + 8 * [1] + 2 * [0]
    for base, made.chroma in enumerate(chroma_formats):
        made.size = (176, 96 + 24 * base) if base in (1, 2) else (8 + 2 * base, 6)
        size = None if base in (1, 2) else made.size
        signal = 1 + base % 2 if base >= 7 else None
        made.unit(SEQUENCE_HEADER, sequence_header(base=base, size=size, signal=signal))
        made.intra(base, flat(250, 4) if size is None else noise(90 + base, base % 7, 1)).end()
    return made


@stream
def header_of_own_values():
    """a sequence header with every custom flag, by values and not by indices, and versions, profile and level above 0
    """
    fields = dict(sampling=1, rate=(30000, 1001), aspect=(12, 11), clean=(16, 12, 2, 1), signal=(7, 200, 100, 128))
    made = Stream().sequence((20, 14), 1, colour=(1, None, 3), version=(1, 9), profile=77, level=200, **fields)
    made.intra(0, noise(110)).end()
    fields = dict(sampling=0, rate=10, aspect=6, clean=(0, 0, 0, 0), signal=(0, 128, 0, 255), colour=(None, None, None))
    return made.sequence((20, 14), 0, version=(0, 0), **fields).intra(0, noise(111)).end()


@stream
def fields():
    """fields as pictures: two frames of 20 by 24 in 4:2:0, then one of 12 by 10 in 4:4:4, and one of a base's own size"""
    made = Stream().sequence((20, 24), 2, mode=1, sampling=1)
    made.intra(0, noise(400)).inter(INTER_1, 1, (-1,), mixed_motion(401, 1), faint(402))
    made.inter(INTER_1, 2, (-2,), mixed_motion(403, 1), faint(404))
    made.inter(INTER_2, 3, (-2, -1), mixed_motion(405, 2), faint(406)).end()
    made.sequence((12, 10), 0, mode=1).intra(0, noise(407, 3)).intra(1, noise(408, 1)).end()
    made.size = (176, 60)
    made.unit(SEQUENCE_HEADER, sequence_header(base=1, mode=1))
    return made.intra(0, flat(250, 4)).inter(INTER_1, 1, (-1,), mixed_motion(409, 1)).end()


@stream
def fields_444():
    """inter fields of one and two references in 4:4:4: frames of 26 by 18, so that a field has 9 rows"""
    made = Stream().sequence((26, 18), 0, mode=1).intra(0, noise(410, 1))
    made.inter(INTER_1, 1, (-1,), mixed_motion(411, 1), faint(412, 2))
    made.inter(INTER_2, 2, (-2, -1), mixed_motion(413, 2), faint(414, 3))
    return made.inter(INTER_2_UNLISTED, 3, (-2, -1), mixed_motion(415, 2, precision=1, blocks=3), faint(416)).end()


@stream
def fields_in_groups():
    """thirteen fields of 20 by 12, 4:2:0, frame by frame, coded as 0 1, 4 5, 2 3, 8 9, 6 7, 12, 10 11: each refers to
    fields of its own parity, but field 1 to field 0, and field 11 to the last frame's only field, which retires one
    """
    made = Stream().sequence((20, 24), 2, mode=1, sampling=1)
    offsets = {1: (-1,), 4: (-4,), 5: (-4,), 8: (-4, -8), 9: (-4, -8), 12: (-4, -12), 11: (-2, 1)}
    made.intra(0, noise(420, 3))
    for number in (1, 4, 5, 2, 3, 8, 9, 6, 7, 12, 10, 11):
        refers = offsets.get(number, (-2, 2))
        is_anchor = number % 4 < 2
        if is_anchor:
            code = INTER_1 if len(refers) == 1 else INTER_2
        else:
            code = INTER_2_UNLISTED
        motion = mixed_motion(420 + number, len(refers), precision=number % 3)
        made.inter(code, number, refers, motion, faint(440 + number), -8 if number == 12 else 0)
    return made.end()


# Units


@stream
def other_units_and_repeated_headers():
    """padding and all eight auxiliary codes, with and without payloads, and the sequence header repeated, between
    pictures
    """
    made = Stream().unit(PADDING, b"").sequence((16, 12)).unit(AUXILIARY, b"\x00BBCD\x10")
    for number in range(4):
        made.intra(number, noise(120 + number))
        made.unit(PADDING, bytes(number)).unit(AUXILIARY + number, b"x" * number).unit(AUXILIARY + 4 + number, b"y")
        made.sequence((16, 12))
    return made.end().unit(AUXILIARY + 7, b"z").sequence((16, 12)).end()


@stream
def sequences_of_different_kinds():
    """three sequences whose size, chroma format and numbers differ; each begins with no reference; the second has no
    picture
    """
    made = one_anchor((20, 16), 2).inter(INTER_1, 1, (-1,), mixed_motion(130, 1)).end()
    made.sequence((500, 400)).end()
    made.sequence((12, 20), 0).intra(77, noise(131, 5)).inter(INTER_1_UNLISTED, 78, (-1,), mixed_motion(132, 1))
    return made.end()


@stream
def offsets_of_all_kinds():
    """previous offsets that are wrong, end units with next offset 13 and 0, end units that end nothing, no picture
    shown twice
    """
    made = Stream().unit(END_OF_SEQUENCE, b"", 13, previous=2**32 - 1)
    made.size, made.chroma = (16, 12), 2
    made.unit(SEQUENCE_HEADER, sequence_header(size=(16, 12)), previous=5).intra(9, noise(140))
    return made.end(13).end(0)


# Inter pictures


@stream
def precisions():
    """inter pictures of one reference at vector precisions 0 to 3: all splits, vectors and DC blocks, residuals"""
    made = one_anchor()
    for number in range(4):
        motion = mixed_motion(150 + number, 1, reach=6 << number, precision=number)
        made.inter(INTER_1, 1 + number, (-1,), motion, faint(160 + number))
    return made.end()


@stream
def two_references():
    """inter pictures of two references, one before and one behind, not reference pictures themselves; and one that
    names a picture twice
    """
    made = two_anchors()
    made.inter(INTER_2_UNLISTED, 1, (-1, 3), mixed_motion(170, 2), faint(174))
    made.inter(INTER_2_UNLISTED, 2, (2, -2), mixed_motion(172, 2, reach=60), faint(175, 0))
    return made.inter(INTER_2, 3, (-3, -3), mixed_motion(173, 2, precision=1), faint(176)).end()


@stream
def block_indices():
    """block indices 2, 3 and 4, two references, 4:2:0, 100 by 70: superblocks reach over the edges"""
    made = two_anchors((100, 70))
    for number in range(1, 4):
        motion = mixed_motion(180 + number, 2, reach=40, blocks=number + 1)
        made.inter(INTER_2_UNLISTED, number, (-number, 4 - number), motion, faint(184 + number))
    return made.end()


@stream
def blocks_of_own_sizes():
    """block sizes of their own: no overlap, an overlap of one sample, the whole overlap, 64 columns, 1 by 1; 4:4:4"""
    made = one_anchor((40, 30), 0)
    sizes_ = [(8, 8, 8, 8), (16, 12, 8, 8), (8, 6, 8, 6), (6, 12, 4, 10), (7, 9, 5, 7), (64, 5, 32, 3)]
    for number, size in enumerate(sizes_, 1):
        motion = mixed_motion(190 + number, 1, blocks=size, precision=number % 4)
        made.inter(INTER_1_UNLISTED, number, (-number,), motion, faint(290 + number))
    made.end().sequence((9, 6), 0).intra(0, noise(197))
    return made.inter(INTER_1, 1, (-1,), mixed_motion(198, 1, reach=5, blocks=(1, 1, 1, 1), precision=0)).end()


@stream
def weights():
    """custom weights, negative ones and 0 among them, at precisions 1 to 8; with one reference the second weight is
    not coded and stays 1
    """
    made = two_anchors()
    for number, values in {1: (3, 5, 3), 2: (1, 2, -1), 3: (6, -20, 255), 5: (8, 255, 1)}.items():
        motion = mixed_motion(210 + number, 2, weights=values, kinds=(1, 2, 3, 3))
        made.inter(INTER_2_UNLISTED, number, (-number, 4 - number), motion, faint(280 + number))
    for number, values in {6: (4, 15), 7: (1, 0), 8: (8, -200), 9: (3, -255)}.items():
        motion = mixed_motion(200 + number, 1, weights=values, kinds=(1, 1, 0))
        made.inter(INTER_1_UNLISTED, number, (-number,), motion, faint(280 + number))
    return made.end()


@stream
def vectors_beyond_the_edges():
    """vectors that point far outside of the reference, up to -32,768 and 32,767, at each precision"""
    made = one_anchor((36, 28))
    far = [-32768, 32767, -300, 300, -60, 60, 0, 1]
    for number in range(1, 5):
        source = Noise(220 + number)

        def block(place, room, source=source):
            return Block((far[source.below(8)], far[source.below(8)]))

        motion = Motion(lambda x, y: 2, block, precision=number - 1)
        made.inter(INTER_1_UNLISTED, number, (-number,), motion, faint(225 + number))
    return made.end()


@stream
def dc_blocks():
    """DC blocks alone, at each split: values that are samples, then up to 1,000, then from -32,768 to 32,767; 64 by
    32, whole superblocks
    """
    made = one_anchor((64, 32))
    for number, dc in enumerate([127, 127, 1000, 32767], 1):
        motion = mixed_motion(230 + number, 1, dc=dc, kinds=(0,))
        made.inter(INTER_1_UNLISTED, number, (-number,), motion, faint(235 + number))
    return made.end()


@stream
def zero_residuals():
    """inter pictures whose zero residual flag is set, of one and of two references, at precision 3"""
    made = two_anchors()
    made.inter(INTER_2, 1, (-1, 3), mixed_motion(245, 2, reach=60, precision=3))
    made.inter(INTER_1, 2, (-1,), mixed_motion(246, 1, reach=48, precision=3))
    return made.inter(INTER_2, 3, (-1, 1), mixed_motion(247, 2, dc=127, precision=3)).end()


@stream_of_each("inter_{}", "inter pictures of one and two references in {}", ["444", "422"])
def inter_of(chroma):
    seed = 250 + 10 * (chroma == "422")
    made = two_anchors((40, 28), ["444", "422"].index(chroma))
    made.inter(INTER_1, 1, (-1,), mixed_motion(seed, 1), faint(seed + 1, 2))
    made.inter(INTER_2, 2, (-1, 2), mixed_motion(seed + 2, 2, precision=1), faint(seed + 3, 3))
    return made.inter(INTER_2, 3, (-1, 1), mixed_motion(seed + 4, 2, precision=3), faint(seed + 5, 5)).end()


@stream
def inter_residuals():
    """residuals of inter pictures: every wavelet, the inter offsets of the quantiser, no prediction of LL, codeblocks;
    64 by 32, whole superblocks
    """
    made = one_anchor((64, 32))
    for number in range(1, 8):
        counts = [(2, 2), (3, 2), (4, 3)] if number % 2 else None
        residual = noise(260 + number, number - 1, 2, counts, zeros=5, finest=4 + number)
        made.inter(INTER_1, number, (-1,), mixed_motion(270 + number, 1), residual)
    return made.end()


@stream
def inter_codeblock_indices():
    """codeblock mode 1 in inter pictures of one and of two references: indices of each codeblock, of LL too; 64 by 32,
    whole superblocks
    """
    made = one_anchor((64, 32))
    for number in range(1, 5):
        counts = [[(2, 2), (3, 2), (4, 3)], None, [(1, 1), (8, 4), (2, 1)], [(5, 3), (1, 1), (7, 2)]][number - 1]
        residual = noise(550 + number, number + 1, 2, counts, zeros=5, finest=6)
        residual = with_indices(residual, indices_of(560 + number, highest=28))
        offsets = (-1, -2) if number % 2 == 0 else (-1,)
        motion = mixed_motion(570 + number, len(offsets), precision=number % 3)
        made.inter(INTER_2 if number % 2 == 0 else INTER_1, number, offsets, motion, residual)
    return made.end()


# References and delivery


@stream
def retirement():
    """pictures that retire: a listed one, one that they refer to themselves, and one that isn't listed"""
    made = Stream().sequence((16, 12))
    for number in range(3):
        made.intra(number, noise(300 + number))
    made.inter(INTER_1, 3, (-3,), mixed_motion(303, 1), faint(308), retired=-3)
    made.intra(4, noise(304), retired=-2).intra(5, noise(305), retired=-4)
    return made.inter(INTER_2, 6, (-2, -3), mixed_motion(307, 2), faint(309)).end()


@stream
def list_of_eight():
    """twelve reference pictures: the list holds eight, the oldest in coding order leave, and the oldest that stays is
    used
    """
    made = Stream().sequence((16, 12))
    for number in [5, 0, 1, 2, 9, 3, 4, 6, 7, 8]:
        made.intra(number, noise(310 + number, zeros=5))
    made.inter(INTER_2, 10, (-9, -2), mixed_motion(320, 2))
    return made.inter(INTER_1, 11, (-9,), mixed_motion(321, 1)).end()


@stream
def a_number_again():
    """reference pictures of a number that is listed: the newer one takes its place as the youngest, and is what is
    referred to; retiring by an offset of 2^32 retires the picture's own number
    """
    made = Stream().sequence((16, 12))
    for n, number in enumerate([0, 1, 2, 1, 0, 1]):
        made.intra(number, noise(330 + n))
    made.intra(2, noise(337), retired=2**32)
    return made.inter(INTER_2, 3, (-2, -3), mixed_motion(336, 2)).end()


@stream
def delivery_in_another_order():
    """coded as 0, 4, 1, 2, 3, 8, 5, 6, 7, 12, 11, 10, 9: at most four wait, and they leave by number"""
    made = Stream().sequence((12, 8))
    for number in [0, 4, 1, 2, 3, 8, 5, 6, 7, 12, 11, 10, 9]:
        made.intra(number, noise(340 + number), code=INTRA if number % 4 == 0 else INTRA_UNLISTED)
    return made.end()


@stream
def numbers_that_wrap():
    """picture numbers from 2^32 - 3 on, over 0, with references across; then, in a second sequence, numbers half a
    turn away
    """
    made = Stream().sequence((16, 12))
    made.intra(2**32 - 3, noise(360)).intra(1, noise(361))
    made.inter(INTER_2_UNLISTED, 2**32 - 2, (-1, 3), mixed_motion(362, 2))
    made.inter(INTER_2_UNLISTED, 0, (-3, 1), mixed_motion(363, 2)).end()
    made.sequence((12, 8))
    for n, number in enumerate([100, 100 + 2**31, 99 + 2**31, 99, 100, 101]):
        made.intra(number % 2**32, noise(364 + n), code=INTRA_UNLISTED)
    return made.end()


@stream
def delivery_before_a_fault():
    """nine reference pictures, coded as 4, 0, 1, 8, 2, 3, 7, 5, 6, and one that refers to picture 4, which has left
    the list: those that wait are delivered before MissingReference is answered
    """
    made = Stream().sequence((12, 8))
    for number in [4, 0, 1, 8, 2, 3, 7, 5, 6]:
        made.intra(number, noise(380 + number))
    return made.inter(INTER_1, 9, (-5,), mixed_motion(385, 1)).end()


# Shapes: small streams which together have each kind of picture that a decoder may find memory for


def few(seed, wavelet, depth, counts=None):
    """A residual of few values, in the coarsest bands and in one of the finest."""
    source = Noise(seed)

    def rows(plane, level, kind, width, height):
        if level > 1 and (level, kind) != (depth, "HH"):
            return None
        return [[source.coefficient(5, 6) for _ in range(width)] for _ in range(height)]

    return Residual(rows, lambda plane, level, kind: 8 + level + plane, wavelet, depth, counts)


def shape_of_residual(number, seed):
    """None, or a residual: every wavelet and depth, and codeblocks in one of three."""
    if number % 4 == 3:
        return None
    depth = 1 + number % 5
    counts = [(2, 1)] + depth * [(2, 2)] if number % 3 == 1 and depth < 4 else None
    return few(seed, number % 7, depth, counts)


SHAPES_OF_BLOCKS = [2, 3, (8, 12, 4, 8), 4, (4, 4, 4, 4)]
SHAPES_OF_WEIGHTS = [None, (2, 3, 1), None, (4, -5, 21), None, None, (1, 2, 0)]


def shapes(chroma, references, first):
    """A picture or two to refer to, and five that do: each precision, block index and weight comes with each format."""
    made = Stream().sequence((16, 8), chroma)
    for number in range(references):
        made.intra(number, few(500 + first + number, (first + number) % 7, 1 + (first + 2 * number) % 5))
    codes = [INTER_1, INTER_1_UNLISTED] if references == 1 else [INTER_2, INTER_2_UNLISTED]
    for n in range(5):
        number, shape = references + n, first + n
        blocks = SHAPES_OF_BLOCKS[shape % 5]
        weights = SHAPES_OF_WEIGHTS[shape % 7]
        motion = mixed_motion(600 + shape, references, 6, precision=shape % 4, blocks=blocks, weights=weights)
        offsets = (-number, 1 - number)[:references]
        made.inter(codes[n % 2], number, offsets, motion, shape_of_residual(shape, 700 + shape))
    return made.end()


@stream_of_each("shapes_of_one_{}", "one reference, five inter pictures of 16 by 8 in {}", ["444", "422", "420"])
def shapes_of_one(chroma):
    index = ["444", "422", "420"].index(chroma)
    return shapes(index, 1, 5 * index)


@stream_of_each("shapes_of_two_{}", "two references, five inter pictures of 16 by 8 in {}", ["444", "422", "420"])
def shapes_of_two(chroma):
    index = ["444", "422", "420"].index(chroma)
    return shapes(index, 2, 3 + 5 * index)


@stream_of_each(
    "shapes_of_intra_{}", "intra pictures of 16 by 8 in {}, of depths 1 to 5, two with codeblocks", ["444", "422", "420"]
)
def shapes_of_intra(chroma):
    index = ["444", "422", "420"].index(chroma)
    made = Stream().sequence((16, 8), index)
    for number in range(5):
        counts = [(2, 1)] + (1 + number) * [(1, 2)] if number < 2 else None
        code = INTRA_UNLISTED if number % 2 else INTRA
        made.intra(number, few(800 + 5 * index + number, (2 + 5 * index + number) % 7, 1 + number, counts), code)
    return made.end()


@stream
def shapes_of_lists():
    """twelve pictures of all six codes, eight references listed, of which the last refer to the oldest and the
    youngest
    """
    made = Stream().sequence((8, 8))
    codes = [INTRA, INTRA, INTER_1, INTER_2, INTRA, INTRA_UNLISTED, INTRA, INTER_1_UNLISTED, INTRA, INTRA]
    for number, code in enumerate([*codes, INTER_2, INTER_2_UNLISTED]):
        if code in (INTRA, INTRA_UNLISTED):
            made.intra(number, few(850 + number, number % 7, 1), code)
            continue
        offsets = {2: (-2,), 3: (-3, -1), 7: (-3,), 10: (-10, -1), 11: (-10, -1)}[number]
        motion = mixed_motion(870 + number, len(offsets), 4, precision=number % 4, blocks=(4, 4, 4, 4))
        made.inter(code, number, offsets, motion, shape_of_residual(number, 890 + number))
    return made.end()


# Faults


def behind_a_picture(code, bits):
    """A stream of 8 by 8 with one picture, and then a picture with these fields."""
    return small().unit(code, bits.payload()).end()


def behind_a_sequence(name, first_bit, **fields):
    """A whole sequence of one picture, and then a sequence header with these fields.

    The one of this name is moved, by profiles of different lengths and by a rate of its own, to where its flag, or
    itself where it has none, is as near before the `first_bit` of a byte as it can be, so that what stands behind it
    is in another byte.
    """
    headers = []
    for profile in (0, 1, 3, 7):
        for rate in (None, 1):
            marks = {}
            header = sequence_header(**({"size": (8, 8), "profile": profile, "rate": rate} | fields), marks=marks)
            headers.append(((first_bit - 1 - marks[name]) % 8, len(header), header))
    return small().end().unit(SEQUENCE_HEADER, min(headers)[2]).end()


def inter_header(code=INTER_1, offset=-1):
    offsets = (offset,) if code == INTER_1 else (offset, offset)
    return picture_header(Bits(), code, 1, offsets, 0).align()


def prediction(blocks=(2,), precision=2, is_global=0, mode=0, weights=()):
    """The header and the prediction parameters of an inter picture of one reference."""
    bits = inter_header().unsigned(*blocks, precision).flag(is_global).unsigned(mode).flag(bool(weights))
    if weights:
        bits.unsigned(weights[0]).signed(weights[1])
    return bits


def intra_header():
    return picture_header(Bits(), INTRA, 1, (), 0).align()


@stream
def fault_missing_end():
    """MissingEnd: the input ends behind a picture"""
    return small()


@stream
def fault_truncated_parse_info():
    """Truncated: 12 bytes of a parse info"""
    made = small().end()
    made.data = made.data[:-1]
    return made


@stream
def fault_truncated_payload():
    """Truncated: the input ends in a picture's payload"""
    made = small().intra(1, noise(400, depth=1))
    made.data = made.data[:-3]
    return made


@stream
def fault_bad_prefix():
    """BadPrefix: a unit begins with BBCE"""
    return small().unit(PADDING, prefix=b"BBCE").end()


@stream
def fault_unknown_code():
    """UnknownCode: parse code 11"""
    return small().unit(0x11).end()


@stream
def fault_low_delay():
    """LowDelay: parse code C8"""
    return small().unit(0xC8, bytes(4)).end()


@stream
def fault_vlc():
    """Vlc: parse code 4C, a picture without arithmetic coding"""
    return small().unit(0x4C, bytes(4)).end()


@stream
def fault_offset_missing():
    """OffsetMissing: a picture with next offset 0"""
    return small().unit(INTRA, bytes(8), next_offset=0).end()


@stream
def fault_sequence_changed():
    """SequenceChanged: a second sequence header of another level"""
    return small().sequence((8, 8), level=1).end()


@stream
def fault_no_sequence():
    """NoSequence: a picture behind an end unit"""
    return small().end().intra(1, grey()).end()


@stream
def fault_unit_short_literal():
    """UnitShort: a picture's payload of three bytes"""
    return small().unit(INTRA, bytes(3)).end()


@stream
def fault_unit_short_block():
    """UnitShort: a subband's block is longer than what is left"""
    bits = intra_header().unsigned(0, 1).flag(0).align().unsigned(9, 0).align().bytes(bytes(8))
    return behind_a_picture(INTRA, bits)


@stream
def fault_number_too_long():
    """NumberTooLong: the level of a sequence header has 39 digits"""
    return behind_a_sequence("level", 8, level=2**39 - 1)


@stream
def fault_number_too_long_in_a_block():
    """NumberTooLong: a coefficient has 39 digits"""
    rows = lambda plane, level, kind, width, height: [[1 - 2**39] * width for _ in range(height)]
    return small().intra(1, Residual(rows, lambda *_: 0, 0, 1)).end()


@stream
def fault_version():
    """Version: major version 3"""
    return behind_a_sequence("version", 8, version=(3, 0))


@stream
def fault_preset():
    """Preset: base video format 17"""
    return behind_a_sequence("base", 8, base=17)


@stream
def fault_size():
    """Size: width 4097"""
    return behind_a_sequence("size", 7, size=(4097, 8))


@stream
def fault_size_of_chroma():
    """Size: 8 by 7 in 4:2:0"""
    return behind_a_sequence("chroma", 8, size=(8, 7), chroma=2)


@stream
def fault_chroma_format():
    """ChromaFormat: 3"""
    return behind_a_sequence("chroma", 7, chroma=3)


@stream
def fault_sampling():
    """Sampling: 2"""
    return behind_a_sequence("sampling", 7, sampling=2)


@stream
def fault_rate_index():
    """RateIndex: 11"""
    return behind_a_sequence("rate", 7, rate=11)


@stream
def fault_aspect_index():
    """AspectIndex: 7"""
    return behind_a_sequence("aspect", 7, aspect=7)


@stream
def fault_signal_range():
    """SignalRange: 5"""
    return behind_a_sequence("signal", 7, signal=5)


@stream
def fault_depth8():
    """Depth8: a chroma excursion of 256, which takes 9 bits; that of luma is 255"""
    return behind_a_sequence("signal", 8, signal=(0, 255, 128, 256))


@stream
def fault_fields():
    """Fields: picture coding mode 2"""
    return behind_a_sequence("mode", 8, mode=2)


@stream
def fault_size_of_fields():
    """Size: fields of frames of 8 by 10 in 4:2:0, whose chroma has no whole rows"""
    return behind_a_sequence("mode", 8, size=(8, 10), mode=1)


@stream
def fault_missing_reference():
    """MissingReference: the second reference is not listed"""
    bits = picture_header(Bits(), INTER_2, 2, (-2, -1), 0).align()
    return behind_a_picture(INTER_2, bits.unsigned(2, 0))


@stream
def fault_block_preset():
    """BlockPreset: index 1"""
    return behind_a_picture(INTER_1, prediction(blocks=(1,)))


@stream
def fault_block_size():
    """BlockSize: 18 columns at a separation of 8"""
    return behind_a_picture(INTER_1, prediction(blocks=(0, 18, 12, 8, 8)))


@stream
def fault_precision():
    """Precision: 4"""
    return behind_a_picture(INTER_1, prediction(precision=4))


@stream
def fault_global_motion():
    """GlobalMotion: the flag is set"""
    return behind_a_picture(INTER_1, prediction(is_global=1))


@stream
def fault_prediction_mode():
    """PredictionMode: 1"""
    return behind_a_picture(INTER_1, prediction(precision=1, mode=1))


@stream
def fault_weights():
    """Weights: a weight of -256"""
    return behind_a_picture(INTER_1, prediction(weights=(8, -256)))


@stream
def fault_wavelet():
    """Wavelet: 7"""
    return behind_a_picture(INTRA, intra_header().unsigned(7, 1))


@stream
def fault_depth():
    """Depth: 6"""
    return behind_a_picture(INTRA, intra_header().unsigned(3, 6))


@stream
def fault_codeblocks():
    """Codeblocks: 5 across at level 1, where luma has 4 columns"""
    return behind_a_picture(INTRA, intra_header().unsigned(3, 1).flag(1).unsigned(1, 1, 5, 1, 0))


@stream
def fault_codeblock_mode():
    """CodeblockMode: 2"""
    return behind_a_picture(INTRA, intra_header().unsigned(3, 1).flag(1).unsigned(1, 1, 2, 1, 2))


@stream
def fault_quant_index():
    """QuantIndex: 100"""
    bits = intra_header().unsigned(0, 1).flag(0).align().unsigned(1, 100).align().bytes(b"\x2e")
    return behind_a_picture(INTRA, bits)


def behind_offsets(index, numbers, flags=()):
    """A picture of 8 by 8 whose first band has this index, and begins with these flags, offsets and values."""
    block = Arithmetic()
    for flag in flags:
        block.decision(18, flag)
    for contexts, value in numbers:
        block.number(contexts, value)
    block = block.block()
    counts = (2, 1) if flags else (1, 1)
    bits = intra_header().unsigned(0, 1).flag(1).unsigned(*counts, 1, 1, 1).align()
    return behind_a_picture(INTRA, bits.unsigned(len(block), index).align().bytes(block))


FIRST_VALUE = ([0, 4, 5, 6, 7, 8], 14, 15)


@stream
def fault_quant_index_of_a_codeblock():
    """QuantIndex: 99, and an offset of 1"""
    return behind_offsets(99, [(OFFSET_NUMBERS, 1)])


@stream
def fault_quant_index_below():
    """QuantIndex: 0, a codeblock that is skipped, and an offset of -1"""
    return behind_offsets(0, [(OFFSET_NUMBERS, -1)], flags=(True, False))


@stream
def fault_quant_index_by_256():
    """QuantIndex: 7, and an offset of 256; then a value of 39 digits, which isn't looked at"""
    return behind_offsets(7, [(OFFSET_NUMBERS, 256), (FIRST_VALUE, 2**39 - 1)])


@stream
def fault_quant_index_by_the_longest():
    """QuantIndex: 50, and an offset of 2 - 2^39, which has 38 digits"""
    return behind_offsets(50, [(OFFSET_NUMBERS, 2 - 2**39)])


@stream
def fault_number_too_long_as_an_offset():
    """NumberTooLong: an offset has 39 digits"""
    return behind_offsets(50, [(OFFSET_NUMBERS, 2**39 - 1)])


@stream
def fault_code_word_before_an_offset():
    """CodeWord: in codeblock mode 1 a band's block begins with 16 ones, and an offset is wanted"""
    bits = intra_header().unsigned(0, 1).flag(1).unsigned(1, 1, 1, 1, 1).align()
    return behind_a_picture(INTRA, bits.unsigned(2, 99).align().bytes(b"\xff\xff"))


@stream
def fault_code_word():
    """CodeWord: a subband's block begins with 16 ones"""
    bits = intra_header().unsigned(0, 1).flag(0).align().unsigned(3, 0).align().bytes(b"\xff\xff\x00")
    return behind_a_picture(INTRA, bits)


@stream
def fault_code_word_of_an_empty_block():
    """CodeWord: the block of splits has length 0, and a split is wanted"""
    return behind_a_picture(INTER_1, prediction().align().unsigned(0).align().unsigned(0))


@stream
def fault_vector_range():
    """VectorRange: a vector of 32,768 columns"""
    motion = Motion(lambda x, y: 0, lambda place, room: Block((32768, 0)))
    return small().inter(INTER_1, 1, (-1,), motion).end()


@stream
def fault_dc_range():
    """DcRange: a DC value of -32,769"""
    motion = Motion(lambda x, y: 0, lambda place, room: Block(dc=(0, -32769, 0)))
    return small().inter(INTER_1, 1, (-1,), motion).end()


# Files


def table():
    lines = ["| Stream | Bytes | What it has |\n", "|---|---|---|\n"]
    for name, make in STREAMS.items():
        what = " ".join(make.__doc__.split())
        lines.append(f"| `{name}` | {len(make().data)} | {what} |\n")
    return "".join(lines)


def readme_with_table():
    text = (FOLDER / "README.md").read_text()
    before, _, rest = text.partition(TABLE_BEGIN)
    _, _, behind = rest.partition(TABLE_END)
    return before + TABLE_BEGIN + table() + TABLE_END + behind


def files():
    """What each file of the folder is to hold."""
    made = {FOLDER / "streams" / f"{name}.drc": make().data for name, make in STREAMS.items()}
    return made | {FOLDER / "README.md": readme_with_table().encode()}


def main():
    if sys.argv[1:] not in ([], ["--compare"]):
        sys.exit("usage: make.py [--compare]")
    wrong = 0
    for path, data in files().items():
        if sys.argv[1:] == []:
            path.parent.mkdir(exist_ok=True)
            path.write_bytes(data)
        elif not path.exists() or path.read_bytes() != data:
            print(f"make.py: {path.relative_to(FOLDER)} differs from what would be made", file=sys.stderr)
            wrong += 1
    listed = {path.stem for path in (FOLDER / "streams").glob("*.drc")}
    for name in sorted(listed - STREAMS.keys()):
        print(f"make.py: streams/{name}.drc is made by no function", file=sys.stderr)
        wrong += 1
    print(f"{len(STREAMS)} streams, {sum(len(make().data) for make in STREAMS.values())} bytes")
    sys.exit(1 if wrong else 0)


if __name__ == "__main__":
    main()
