"""`dirac encode`: a stream of any clip."""
import argparse
import collections
import os
import threading

from . import psnr
from .clips import open_clip, with_rate
from .formats import BASE_FORMATS, BOTTOM_FIRST, FULL_RANGE, LIMITED_RANGE, PROGRESSIVE, RATES, TOP_FIRST
from .formats import MATRICES, rate_index, usual_colour, with_matrix
from .outputs import check_apart, check_stream_name, stream_output
from .plain import decoder, encoder
from .program import refusal, start, workers
from .progress import Progress, size_text, time_text
from .refusal import Refusal
from .sequence import read_header, spell_header
from .sources import tell
from .units import PICTURES, SEQUENCE_HEADER, UnitWriter, read_units

EPILOG = """examples:
  dirac encode clip.y4m -o clip.drc
  dirac encode clip.mkv -o clip.drc --index 20              anything that ffmpeg opens, where it is there
  dirac encode clip.mp4 -o clip.mkv                         in Matroska, for other players (wants mkvmerge)
  dirac encode clip.mp4 -o clip.drc --filter scale=640:360 --psnr
  dirac encode clip.yuv -o clip.drc --raw 720x576 --chroma 4:2:2 --rate 25
  ffmpeg -v error -i clip.mp4 -f yuv4mpegpipe - | dirac encode - -o - > clip.drc

Size, chroma format, range, rate, pixel aspect and the order of fields are those of the clip. A rate that the standard's
table doesn't have is refused: say --rate with one of the table, have ffmpeg convert the clip (--filter fps=25), or say
--own-rate, which writes the clip's rate as two numbers. The matrix of the colours is the clip's; where it says none,
BT.709 above 576 rows or 1279 columns, and else BT.601, which is what players take. What `encode` of the proved program
has no setting for (pixel aspect, colours, interlacing, a rate of its own) is written into the sequence headers
afterwards, all alike: those values change no sample, and every other unit stays byte for byte. Interlaced clips are
coded as frames; --fields codes their fields.
docs/ENCODER.md says what the settings mean. --index is the one that matters: 0 loses nothing, 12 is the default, 30 is
small and coarse.
"""
# settings that go to the program as they are
PASSED = ["base", "profile", "level", "wavelet", "depth", "index", "codeblocks", "finer", "blocks", "precision"]
PASSED += ["references", "gop", "between", "range", "pyramid", "bias", "workers", "unit_bytes", "alike"]
BASES = {PROGRESSIVE: 0, TOP_FIRST: 8, BOTTOM_FIRST: 7}
SIGNALS = {"full": FULL_RANGE, "limited": LIMITED_RANGE}
# what the program is told where the rate is written afterwards
RATE_IN_BETWEEN = 3
OTHER_WAYS = " (the same pictures, at that speed), or --filter fps=25, or --own-rate, which writes it as two numbers"


def add_to(commands):
    parser = commands.add_parser(
        "encode",
        usage="dirac encode CLIP -o X.drc [--psnr] [--rate R] [--index N] ...",
        help="make a stream of a clip: y4m, raw pictures, or anything that ffmpeg opens",
        description="Makes a Dirac stream of a clip.",
        epilog=EPILOG,
        formatter_class=argparse.RawDescriptionHelpFormatter,
    )
    parser.add_argument("clip", metavar="CLIP", help="y4m, or any clip where ffmpeg is there; - is standard input")
    text = "the stream to write, or Matroska, as X.mkv; - is standard output"
    parser.add_argument("-o", metavar="X.drc", required=True, help=text)
    parser.add_argument("--psnr", action="store_true", help="tell in the end how near the pictures are, plane by plane")
    parser.add_argument("--frames", metavar="N", type=int, help="only so many pictures from the beginning on")
    parser.add_argument("--rate", metavar="R", help="frames a second, as 25 or 30000/1001, in place of the clip's")
    parser.add_argument("--own-rate", action="store_true", help="write a rate that the table doesn't have")
    parser.add_argument("--signal", choices=SIGNALS, help="the range of the samples, in place of the clip's")
    parser.add_argument("--matrix", choices=MATRICES, help="the matrix of the colours, in place of the clip's")
    parser.add_argument("--chroma", metavar="F", help="4:2:0, 4:2:2 or 4:4:4; another one than the clip's wants ffmpeg")
    parser.add_argument(
        "--filter", metavar="F", help="filters of ffmpeg, such as scale=640:360, fps=25 or crop=640:480"
    )
    parser.add_argument("--raw", metavar="WxH", help="the clip is raw pictures of this size")
    parser.add_argument("--fields", action="store_true", help="code the two fields of each frame as pictures")
    parser.add_argument(
        "--budget", metavar="N", type=int, help="most bytes of a picture's unit; the index rises to fit"
    )
    settings = parser.add_argument_group("settings of the program (docs/ENCODER.md)")
    for name in PASSED:
        settings.add_argument(f"--{name.replace('_', '-')}", metavar="N", type=int, help=help_of(name))
    parser.set_defaults(run=run)


def help_of(name):
    lowest, highest = next(row[1:] for row in encoder.SETTING_RANGES if row[0] == name)
    own = {"workers": "as many as processors", "alike": 1}
    usual = own.get(name, encoder.SETTING_DEFAULTS.get(name, "by the clip's scan"))
    return f"{lowest} to {highest}; {usual} where it isn't given"


# Settings


def index_of_rate(video, has_own_rate):
    """The index of the clip's rate, None where it is to stand as two numbers."""
    if has_own_rate and video.rate is not None and video.rate not in RATES:
        return None
    return rate_index(video.rate, OTHER_WAYS)


def is_top_first(base):
    return 0 <= base < len(BASE_FORMATS) and BASE_FORMATS[base].is_top_first


def settings_of(video, words):
    """The words of the program for a clip."""
    index = index_of_rate(video, words.own_rate)
    if video.signal not in SIGNALS.values():
        raise Refusal("the clip's range is neither full nor limited: say --signal")
    settings = {"base": BASES[video.scan], "chroma": video.chroma, "width": video.width, "height": video.height}
    settings.update(
        rate=index or RATE_IN_BETWEEN, signal=1 if video.signal == FULL_RANGE else 2, fields=int(words.fields)
    )
    settings["workers"] = workers()
    settings["alike"] = 1
    settings.update({name: getattr(words, name) for name in PASSED if getattr(words, name) is not None})
    check_order(video, settings["base"])
    command = "encode" if words.budget is None else "rate"
    given = [f"--{name}={value}" for name, value in settings.items()]
    return [command, *given] + ([] if words.budget is None else [f"--budget={words.budget}"])


def check_order(video, base):
    """Refuses a base whose first field isn't the clip's."""
    order = TOP_FIRST if is_top_first(base) else BOTTOM_FIRST
    if video.scan not in (PROGRESSIVE, order):
        raise Refusal(f"base {base} says {order}, and the clip {video.scan}: leave --base away", 2)


def header_for(header, video):
    """The header with what the program has no setting for."""
    header = header._replace(rate=video.rate, aspect=video.aspect, is_interlaced=video.scan != PROGRESSIVE)
    colour = usual_colour(video) if video.colour is None else video.colour
    return header if header.known_colour() == colour else header._replace(colour=colour)


# The run


class Compared:
    """Measures what decoders will show against what was coded, while both pass."""

    def __init__(self, video):
        self.measure, self.waiting = psnr.Measure(video), collections.deque()
        self.reading, self.writing = os.pipe()
        self.thread = threading.Thread(target=self._read, daemon=True)

    def word(self):
        return f"--recon=/dev/fd/{self.writing}"

    def start(self):
        """To be called once the program has its end of the pipe."""
        os.close(self.writing)
        self.thread.start()

    def _read(self):
        length = self.measure.video.picture_length()
        with open(self.reading, "rb") as file:
            while True:
                picture = file.read(length)
                if len(picture) < length:
                    return
                self.measure.add(self.waiting.popleft(), picture)

    def line(self):
        self.thread.join()
        return psnr.line(self.measure.all()) if self.measure.count else "no picture"


def fields_of(pictures, video, has_top_first):
    """The two fields of each frame, the first one first."""
    order = (0, 1) if has_top_first else (1, 0)
    for picture in pictures:
        for parity in order:
            field = bytearray()
            for (width, _), plane in zip(video.plane_sizes(), video.planes(picture)):
                for place in range(parity * width, len(plane), 2 * width):
                    field += plane[place : place + width]
            yield bytes(field)


def fed_pictures(clip, words, compared):
    """The pictures for the program, as many as are wanted."""
    pictures = clip.pictures
    if words.frames is not None:
        pictures = (picture for _, picture in zip(range(words.frames), pictures))
    if words.fields:
        base = BASES[clip.video.scan] if words.base is None else words.base
        pictures = fields_of(pictures, clip.video, is_top_first(base))
    for picture in pictures:
        if compared is not None:
            compared.waiting.append(picture)
        yield picture


def write_stream(pipe, video, output, progress):
    """Passes the units on, with the headers as they are to be; how many pictures there were."""
    writer, count = UnitWriter(output), 0
    try:
        for unit in read_units(pipe):
            payload = unit.payload
            if unit.code == SEQUENCE_HEADER:
                payload = spell_header(header_for(read_header(payload), video))
            count += unit.code in PICTURES
            writer.write(unit.code, payload)
            progress.show(count, writer.bytes)
    except decoder.StreamFault:
        # the program ended before its stream did; its status says why
        pass
    finally:
        progress.clear()
    return count


def run(words):
    check_stream_name(words.o)
    check_apart(words.o, [words.clip])
    clip = with_rate(open_clip(words.clip, words), words.rate)
    if words.signal:
        clip.video = clip.video._replace(signal=SIGNALS[words.signal])
    clip.video = video = with_matrix(clip.video, words.matrix)
    given = settings_of(video, words)
    coded = video._replace(height=video.height // 2) if words.fields else video
    compared = Compared(coded) if words.psnr else None
    total = clip.count if words.frames is None else min(words.frames, clip.count or words.frames)
    progress = Progress(2 * total if total and words.fields else total)
    with stream_output(words.o) as output:
        fed = fed_pictures(clip, words, compared)
        if compared is None:
            pipe = start(given, fed)
        else:
            pipe = start([*given, compared.word()], fed, (compared.writing,))
            compared.start()
        count = write_stream(pipe, video, output, progress)
        try:
            problem = refusal(clip.name, *pipe.finish())
        except Refusal as broken_off:
            if count:
                output.keep()
                broken_off.text += f"; {words.o} has the {count} pictures before"
            raise
        if problem is not None:
            raise problem
        output.keep()
    tell(f"{count} pictures, {size_text(output.bytes)}, in {time_text(progress.clock() - progress.begin)}")
    if compared is not None:
        tell(f"PSNR {compared.line()}")
    return 0
