"""`dirac compare`: how near two clips are, picture by picture."""
import argparse
import itertools

from . import psnr
from .clips import open_clip
from .formats import CHROMA_FORMATS
from .refusal import Refusal
from .sources import tell

EPILOG = """examples:
  dirac compare clip.y4m clip.drc
  dirac compare clip.mp4 clip.drc --plot psnr.png
  dirac compare clip.yuv clip.drc --raw 720x576 --chroma 4:2:2

Writes a line for each picture, PSNR of Y, U and V in decibels (`same` where no sample differs), and one of all. Both
must have the same size and chroma format. The status is 1 where one has more pictures.
"""


def add_to(commands):
    parser = commands.add_parser(
        "compare",
        help="tell PSNR of two clips, picture by picture and plane by plane",
        description="Compares two clips: streams, y4m, or anything that ffmpeg opens.",
        epilog=EPILOG,
        formatter_class=argparse.RawDescriptionHelpFormatter,
    )
    parser.add_argument("one", metavar="A", help="a clip; - is standard input")
    parser.add_argument("other", metavar="B", help="a clip; - is standard input")
    parser.add_argument("--raw", metavar="WxH", help="files that are no clip of another kind are raw pictures so large")
    parser.add_argument("--chroma", metavar="F", help="the chroma format of raw pictures: 4:2:0, 4:2:2 or 4:4:4")
    parser.add_argument("--plot", metavar="X.png", help="draw it too, where matplotlib is there")
    parser.set_defaults(run=run, filter=None)


def plotting():
    """matplotlib's drawing part."""
    try:
        import matplotlib
    except ImportError:
        raise Refusal("compare: --plot wants matplotlib, which isn't there (pip install matplotlib)") from None
    matplotlib.use("Agg")
    import matplotlib.pyplot

    return matplotlib.pyplot


def draw(plot, rows, path):
    """A curve a plane; pictures that are the same have no point."""
    figure, axes = plot.subplots(figsize=(9, 4))
    for number, plane in enumerate(psnr.PLANES):
        axes.plot([float("nan") if row[number] is None else row[number] for row in rows], label=plane, linewidth=1)
    axes.set_xlabel("picture")
    axes.set_ylabel("PSNR in decibels")
    axes.legend()
    figure.savefig(path, dpi=120, bbox_inches="tight")


def check_alike(one, other):
    kinds = [(clip.video.width, clip.video.height, CHROMA_FORMATS[clip.video.chroma].name) for clip in (one, other)]
    if kinds[0] != kinds[1]:
        texts = ["{} by {}, {}".format(*kind) for kind in kinds]
        raise Refusal(f"compare: {one.name} is {texts[0]}, and {other.name} is {texts[1]}")


def run(words):
    plot = plotting() if words.plot else None
    one, other = open_clip(words.one, words, False), open_clip(words.other, words, False)
    check_alike(one, other)
    measure, rows, ends = psnr.Measure(one.video), [], [0, 0]
    for pictures in itertools.zip_longest(one.pictures, other.pictures):
        ends = [end + (picture is not None) for end, picture in zip(ends, pictures)]
        if None not in pictures:
            rows.append(measure.add(*pictures))
            print(f"{measure.count - 1:>6}  {psnr.line(rows[-1])}", flush=True)
    if not rows:
        raise Refusal("compare: there is no picture to compare")
    print(f"   all  {psnr.line(measure.all())}")
    if plot:
        draw(plot, rows, words.plot)
    if ends[0] != ends[1]:
        tell(f"{one.name} has {ends[0]} pictures, {other.name} has {ends[1]}; as many as both have were compared")
        return 1
    return 0
