"""Tables of the format that no sample depends on: rates, pixel aspects, fields; and what a clip says of itself."""
from fractions import Fraction
from typing import NamedTuple

from .plain import decoder
from .refusal import Refusal


class ChromaFormat(NamedTuple):
    name: str
    across: int
    down: int
    y4m: str
    ffmpeg: str


CHROMA_FORMATS = [
    ChromaFormat("4:4:4", *decoder.CHROMA_RATIOS[0], "444", "yuv444p"),
    ChromaFormat("4:2:2", *decoder.CHROMA_RATIOS[1], "422", "yuv422p"),
    ChromaFormat("4:2:0", *decoder.CHROMA_RATIOS[2], "420jpeg", "yuv420p"),
]

# by index, from 1 on
RATES = [None] + [
    Fraction(*pair)
    for pair in [(24000, 1001), (24, 1), (25, 1), (30000, 1001), (30, 1), (50, 1), (60000, 1001), (60, 1)]
    + [(15000, 1001), (25, 2)]
]
ASPECTS = [None] + [Fraction(*pair) for pair in [(1, 1), (10, 11), (12, 11), (40, 33), (16, 11), (4, 3)]]

# two rates that differ by less than this part are the same, rounded
ROUNDING = 10000

FULL_RANGE, LIMITED_RANGE = decoder.SIGNAL_RANGES[1], decoder.SIGNAL_RANGES[2]

# how the rows of a frame were taken: all at once, or as two fields, the top or the bottom one first
PROGRESSIVE, TOP_FIRST, BOTTOM_FIRST = "progressive", "top field first", "bottom field first"


# colour specifications by index; what 0 leaves open is taken as HDTV
HDTV, DIGITAL_CINEMA = 3, 4
COLOURS = ["", "SDTV of 525 lines (BT.601)", "SDTV of 625 lines (BT.601)", "HDTV (BT.709)", "digital cinema (BT.709)"]
# by the words of --matrix
SDTV_525, SDTV_625 = 1, 2
MATRICES = {"601": (SDTV_525, SDTV_625), "709": (HDTV, DIGITAL_CINEMA)}
# what ffmpeg names matrix, primaries and transfer
FFMPEG_COLOURS = {SDTV_525: ("smpte170m",) * 3, SDTV_625: ("bt470bg", "bt470bg", "bt709")}
FFMPEG_COLOURS.update(dict.fromkeys((HDTV, DIGITAL_CINEMA), ("bt709",) * 3))
# pictures with more rows or columns than these have the matrix of HDTV where nobody says which
MOST_SDTV_ROWS, MOST_SDTV_COLUMNS = 576, 1279
ROWS_OF_525 = (120, 240, 480, 486)


class BaseFormat(NamedTuple):
    """What a base video format gives beside size, chroma format and signal range.

    Which field is first is nowhere written in a stream but in its base; it matters to interlaced pictures alone.
    """

    is_interlaced: bool
    rate: int
    aspect: int
    clean: tuple
    is_top_first: bool
    colour: int


def _base_formats():
    small = [(0, 9, 2, 0, SDTV_525), (0, 10, 3, 1, SDTV_625)]
    bases = [(0, 1, 1, 0, HDTV), *small, *small, *small, (1, 4, 2, 0, SDTV_525), (1, 3, 3, 1, SDTV_625)]
    bases += [(0, 7, 1, 1, HDTV), (0, 6, 1, 1, HDTV), (1, 4, 1, 1, HDTV), (1, 3, 1, 1, HDTV), (0, 7, 1, 1, HDTV)]
    bases += [(0, 6, 1, 1, HDTV), (0, 2, 1, 1, DIGITAL_CINEMA), (0, 2, 1, 1, DIGITAL_CINEMA)]
    for (is_interlaced, rate, aspect, is_top_first, colour), size in zip(bases, decoder.BASE_FORMATS):
        clean = (size.width, size.height, 0, 0)
        if is_interlaced and size.width == 720:
            clean = (704, size.height, 8, 0)
        yield BaseFormat(bool(is_interlaced), rate, aspect, clean, bool(is_top_first), colour)


BASE_FORMATS = list(_base_formats())


class Video(NamedTuple):
    """What is known of pictures beside their samples; `rate` is frames a second, `colour` an index of COLOURS.

    Rate, aspect, signal range and colour are None where nobody says them.
    """

    width: int
    height: int
    chroma: int
    rate: Fraction
    aspect: Fraction = Fraction(1)
    signal: tuple = LIMITED_RANGE
    scan: str = PROGRESSIVE
    colour: int = None

    def picture_length(self):
        """Bytes of a raw picture."""
        return sum(width * height for width, height in self.plane_sizes())

    def plane_sizes(self):
        return decoder.plane_sizes(decoder.Sequence(self.width, self.height, self.chroma))

    def planes(self, raw):
        """The planes of a raw picture, as bytes each."""
        place = 0
        for width, height in self.plane_sizes():
            yield raw[place : place + width * height]
            place += width * height


def check_size(width, height, chroma):
    """Refuses a size that no stream has."""
    format_ = CHROMA_FORMATS[chroma]
    if width % format_.across or height % format_.down:
        even = f"{width // format_.across * format_.across}x{height // format_.down * format_.down}"
        raise Refusal(
            f"{width} by {height} can't be {format_.name}, whose chroma has no whole columns or rows then: say --chroma"
            f" 4:4:4, or --filter crop={even.replace('x', ':')} where ffmpeg is there"
        )
    if not (1 <= width <= 4096 and 1 <= height <= 2304):
        raise Refusal(f"{width} by {height}: a stream has pictures of 1 by 1 to 4096 by 2304")


def usual_colour(video):
    """The colour specification of pictures of which nobody says it: by their size, as players take it."""
    if video.height > MOST_SDTV_ROWS or video.width > MOST_SDTV_COLUMNS:
        return HDTV
    return SDTV_525 if video.height in ROWS_OF_525 else SDTV_625


def matrix_of(video):
    """The matrix as a word of MATRICES; None where nobody says it."""
    return next((name for name, colours in MATRICES.items() if video.colour in colours), None)


def colour_filter(video):
    """The words by which ffmpeg and ffplay know the colours of y4m, which can't say them."""
    if video.colour not in FFMPEG_COLOURS:
        return []
    return ["-vf", "setparams=colorspace={}:color_primaries={}:color_trc={}".format(*FFMPEG_COLOURS[video.colour])]


def with_matrix(video, matrix):
    """The video, with the matrix that a word says; None leaves it as it is."""
    if matrix is None or video.colour in MATRICES[matrix]:
        return video
    if matrix == "709":
        return video._replace(colour=HDTV)
    return video._replace(colour=SDTV_525 if video.height in ROWS_OF_525 else SDTV_625)


def rate_text(rate):
    """A rate as a stream's table has it, and in decimals where it isn't whole."""
    if rate.denominator == 1:
        return str(rate.numerator)
    return f"{rate.numerator}/{rate.denominator} ({float(rate):.4g})"


def nearest_rates(rate):
    """The rate of the table below and the one above, where there are such."""
    below = [known for known in RATES[1:] if known < rate]
    above = [known for known in RATES[1:] if known > rate]
    found = ([max(below)] if below else []) + ([min(above)] if above else [])
    return sorted(found, key=lambda known: abs(known - rate))


def rate_index(rate, other_ways=""):
    """The index of a rate in the table; a refusal that names the nearest ones, and other ways, where it has none."""
    if rate is None:
        raise Refusal("the clip doesn't say its rate: say it, as --rate=25")
    if rate in RATES[1:]:
        return RATES.index(rate)
    nearest = " or ".join(f"--rate={known}" for known in nearest_rates(rate))
    raise Refusal(
        f"{rate_text(rate)} pictures a second is no rate of the standard's table; nearest: {nearest}{other_ways}"
    )


def rounded_rate(rate):
    """The rate of the table that a container's rounding made this of, such as 24000/1001 of 23.976; else the rate."""
    nearest = nearest_rates(rate)[0] if rate is not None and rate not in RATES else None
    return nearest if nearest is not None and abs(nearest - rate) < rate / ROUNDING else rate


def read_rate(text):
    """A rate as 25, 12.5, 30000/1001 or 30000:1001."""
    try:
        rate = Fraction(text.replace(":", "/"))
    except (ValueError, ZeroDivisionError):
        rate = Fraction(0)
    if rate <= 0:
        raise Refusal(f"rate {text}: say it as 25, 12.5 or 30000/1001", 2)
    return rate


def read_chroma(text):
    """The index of a chroma format as 4:2:0, 420 or yuv420p."""
    for index, format_ in enumerate(CHROMA_FORMATS):
        if text in (format_.name, format_.name.replace(":", ""), format_.ffmpeg):
            return index
    raise Refusal(f"chroma format {text}: say 4:2:0, 4:2:2 or 4:4:4", 2)


def read_size(text):
    width, _, height = text.partition("x")
    if not (width.isdigit() and height.isdigit()):
        raise Refusal(f"size {text}: say it as 720x576", 2)
    return int(width), int(height)
