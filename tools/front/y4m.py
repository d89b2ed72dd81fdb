"""y4m: raw pictures with a line in front that says their size, rate, chroma format, pixel aspect and range."""
import re
from fractions import Fraction

from .formats import BOTTOM_FIRST, CHROMA_FORMATS, FULL_RANGE, LIMITED_RANGE, PROGRESSIVE, TOP_FIRST, Video
from .refusal import Refusal

MAGIC = b"YUV4MPEG2 "
FRAME = b"FRAME\n"
LONGEST_LINE = 1000
CHROMA_NAMES = {"444": 0, "422": 1, "420": 2, "420jpeg": 2, "420mpeg2": 2, "420paldv": 2}
SCANS = {"t": TOP_FIRST, "b": BOTTOM_FIRST}


def _ratio(text, name):
    """A ratio as two numbers with a colon; None where it says that nobody knows it."""
    if not re.fullmatch("[0-9]+:[0-9]+", text):
        raise Refusal(f"the y4m header's {name} {text} isn't two numbers with : between them")
    numerator, denominator = map(int, text.split(":"))
    return Fraction(numerator, denominator) if numerator and denominator else None


def read_header(source):
    """What a y4m stream says of its pictures, from its first line. A range that isn't said is the limited one."""
    line = source.readline(LONGEST_LINE)
    if not line.startswith(MAGIC) or not line.endswith(b"\n"):
        raise Refusal("not a y4m stream: it doesn't begin with a line of YUV4MPEG2")
    words = line.decode("ascii", "replace").split()[1:]
    tags = {word[0]: word[1:] for word in words if word[0] != "X"}
    name = tags.get("C", "420")
    if name not in CHROMA_NAMES:
        known = "8-bit 4:2:0, 4:2:2 and 4:4:4"
        raise Refusal(f"y4m of chroma format {name}: only {known} are taken; ffmpeg's -pix_fmt yuv420p makes it that")
    if not (tags.get("W", "").isdigit() and tags.get("H", "").isdigit()):
        raise Refusal("the y4m header has no width and height")
    rate = _ratio(tags.get("F", "0:0"), "rate")
    aspect = _ratio(tags.get("A", "0:0"), "pixel aspect")
    is_full = "XCOLORRANGE=FULL" in words
    scan = SCANS.get(tags.get("I", "p")[:1], PROGRESSIVE)
    size = (int(tags["W"]), int(tags["H"]))
    signal = FULL_RANGE if is_full else LIMITED_RANGE
    return Video(*size, CHROMA_NAMES[name], rate, aspect or Fraction(1), signal, scan)


def read_pictures(source, length):
    """The raw pictures behind the first line, each of so many bytes."""
    count = 0
    while True:
        line = source.readline(LONGEST_LINE)
        if not line:
            return
        if not line.startswith(FRAME[:-1]) or not line.endswith(b"\n"):
            raise Refusal(f"the y4m stream has no FRAME where picture {count} begins")
        picture = source.read(length)
        if len(picture) < length:
            raise Refusal(f"picture {count} of the y4m stream has {len(picture)} of {length} bytes")
        yield picture
        count += 1


def spell_header(video):
    """The first line; a rate that nobody says is 25."""
    rate = video.rate or Fraction(25)
    scan = {TOP_FIRST: "t", BOTTOM_FIRST: "b"}.get(video.scan, "p")
    line = f"YUV4MPEG2 W{video.width} H{video.height} F{rate.numerator}:{rate.denominator} I{scan}"
    if video.aspect is not None:
        line += f" A{video.aspect.numerator}:{video.aspect.denominator}"
    line += f" C{CHROMA_FORMATS[video.chroma].y4m}"
    if video.signal in (FULL_RANGE, LIMITED_RANGE):
        line += f" XCOLORRANGE={'FULL' if video.signal == FULL_RANGE else 'LIMITED'}"
    return f"{line}\n".encode()
