"""`dirac decode`: pictures of a stream as y4m, raw, PNG or sums, or through ffmpeg as any other clip."""
import argparse

from .decoding import PLAIN_HELP, Decoding, of_one_kind
from .outputs import check_apart
from .progress import Progress
from .refusal import Refusal
from .sinks import PngSink, SumSink, sink_for
from .sources import open_stream

EPILOG = """examples:
  dirac decode moving.drc -o moving.y4m         size, rate, range and pixel aspect are those of the stream
  dirac decode moving.mkv -o moving.mp4         anything that ffmpeg opens and writes, where it is there
  dirac decode moving.drc --md5                 a sum for each picture, and one of all
  dirac decode moving.drc --png -o moving.png   moving-0000.png and so on
  dirac decode moving.drc -o - | ffplay -       y4m through a pipe

By -o the kind is known: .y4m (and -), .yuv for raw pictures, .png, any other ending through ffmpeg. Fields are woven
to frames. At a fault of the stream what was shown before it is kept, and the status is 4.
"""


def add_to(commands):
    parser = commands.add_parser(
        "decode",
        help="make pictures of a stream: y4m, raw, PNG, sums, or any clip through ffmpeg",
        description="Decodes a Dirac stream, a file of its own or in Ogg, Matroska, AVI and other containers.",
        epilog=EPILOG,
        formatter_class=argparse.RawDescriptionHelpFormatter,
    )
    parser.add_argument("stream", metavar="X.drc", help="a stream or a container with one; - is standard input")
    parser.add_argument("-o", metavar="CLIP", help="what to write; - is standard output")
    parser.add_argument("--frames", metavar="N", type=int, help="only so many pictures from the beginning on")
    parser.add_argument("--md5", action="store_true", help="write a sum for each picture, in place of a clip")
    parser.add_argument("--png", action="store_true", help="write each picture as a PNG file of its own")
    parser.add_argument("--fields", action="store_true", help="leave fields apart: pictures of half the rows")
    parser.add_argument("--plain", action="store_true", help=PLAIN_HELP)
    parser.set_defaults(run=run)


def kind_of_sink(words):
    if words.md5:
        return SumSink
    if words.o is None:
        raise Refusal("decode: name what to write with -o, or say --md5", 2)
    return PngSink if words.png else sink_for(words.o)


def pass_on(sink, pictures, most=None, watcher=None):
    """Hands the pictures to a sink, at most so many; how many there were. What came before a fault is kept."""
    progress, count = Progress(most), 0
    try:
        for picture in pictures:
            if most is not None and count >= most:
                break
            sink.take(picture)
            count += 1
            if watcher is not None:
                progress.show(count, watcher.bytes)
        sink.keep()
    except Refusal:
        sink.keep()
        raise
    finally:
        progress.clear()
        sink.close()
    return count


def run(words):
    kind = kind_of_sink(words)
    if words.frames is not None and words.frames < 0:
        raise Refusal("--frames takes a number from 0 on", 2)
    if words.o is not None:
        check_apart(words.o, [words.stream])
    decoding = Decoding(open_stream(words.stream), words.plain)
    video, pictures = of_one_kind(decoding.pictures(), words.fields, kind.takes_any)
    count = 0
    if video is not None:
        count = pass_on(kind(words.o, video), pictures, words.frames, decoding.watcher)
    if words.frames is not None and count >= words.frames:
        decoding.pipe.stop()
        return 0
    problem = decoding.finish()
    if problem is not None:
        raise problem
    if video is None:
        raise Refusal(f"{decoding.name}: the stream has no picture")
    return 0
