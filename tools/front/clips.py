"""Clips: raw pictures and what is known of them, from y4m, raw files, Dirac streams, and all that ffmpeg opens."""
import json
import re
import subprocess
from fractions import Fraction

from . import y4m
from .decoding import Decoding, of_one_kind
from .formats import CHROMA_FORMATS, HDTV, SDTV_525, SDTV_625, Video
from .formats import check_size, read_chroma, read_rate, read_size, rounded_rate
from .refusal import Refusal
from .sources import Source, Stream, read_through_ffmpeg, tell, wanted


# the colour specification by what ffprobe calls the matrix
KNOWN_MATRICES = {"bt709": HDTV, "bt470bg": SDTV_625, "smpte170m": SDTV_525}


class Clip:
    """Raw pictures in turn; `count` is how many there are, where that is known before."""

    def __init__(self, name, video, pictures, count=None):
        self.name, self.video, self.pictures, self.count = name, video, pictures, count


def read_raw_pictures(source, length):
    count = 0
    while True:
        picture = source.read(length)
        if not picture:
            return
        if len(picture) < length:
            raise Refusal(f"{len(picture)} bytes are left over whole pictures of {length}: are size and chroma right?")
        yield picture
        count += 1


def _raw_clip(source, words):
    width, height = read_size(words.raw)
    chroma = read_chroma(words.chroma or "4:2:0")
    video = Video(width, height, chroma, None)
    check_size(width, height, chroma)
    count = None if source.size is None else source.size // video.picture_length()
    return Clip(source.name, video, read_raw_pictures(source, video.picture_length()), count)


def _y4m_clip(name, file, size=None, count=None):
    video = y4m.read_header(file)
    check_size(video.width, video.height, video.chroma)
    if size is not None:
        count = size // (video.picture_length() + len(y4m.FRAME))
    return Clip(name, video, y4m.read_pictures(file, video.picture_length()), count)


def _probed(path):
    """What ffprobe says of a file's first video and of the file; nothing where it says nothing."""
    words = ["-v", "error", "-select_streams", "v:0", "-of", "json", "-show_entries"]
    words += ["stream=nb_frames,avg_frame_rate,duration,color_space,pix_fmt:format=duration", f"file:{path}"]
    try:
        done = subprocess.run(
            [wanted("ffprobe", "to count pictures"), *words], capture_output=True, stdin=subprocess.DEVNULL
        )
        told = json.loads(done.stdout)
        return told["streams"][0], told["format"]
    except (Refusal, OSError, ValueError, KeyError, IndexError):
        return {}, {}


def _picture_count(stream, file):
    """How many pictures a file has by what ffprobe says, or None."""
    try:
        if stream.get("nb_frames", "").isdigit():
            return int(stream["nb_frames"])
        duration = stream.get("duration") or file["duration"]
        return round(Fraction(duration) * Fraction(stream["avg_frame_rate"]))
    except (ValueError, KeyError, ZeroDivisionError):
        return None


def _colour(stream):
    """The colour specification by what ffprobe says, or None; of red, green and blue ffmpeg makes BT.601."""
    if re.match("rgb|bgr|gbr|argb|abgr|0rgb|0bgr|x2rgb|x2bgr|pal8|mono", stream.get("pix_fmt", "")):
        return SDTV_625
    return KNOWN_MATRICES.get(stream.get("color_space"))


def _filters(words):
    formats = [CHROMA_FORMATS[read_chroma(words.chroma)]] if words.chroma else CHROMA_FORMATS
    given = [words.filter] if words.filter else []
    return ",".join([*given, "format=" + "|".join(format_.ffmpeg for format_ in formats)])


def _ffmpeg_clip(source, words):
    given = ["-map", "0:v:0", "-vf", _filters(words), "-f", "yuv4mpegpipe", "-"]
    told = ({}, {}) if source.path == "-" else _probed(source.path)
    count = None if words.filter else _picture_count(*told)
    clip = _y4m_clip(source.name, read_through_ffmpeg(source, given), count=count)
    clip.video = clip.video._replace(colour=_colour(told[0]))
    space = told[0].get("color_space", "unknown")
    if clip.video.colour is None and space != "unknown":
        tell(f"{source.name} has colours of {space}, which no stream can say: they are taken as if it said none")
    return clip


def _decoded_clip(stream):
    """A stream as a clip."""
    decoding = Decoding(stream)
    video, pictures = of_one_kind(decoding.pictures())

    def checked():
        yield from pictures
        problem = decoding.finish()
        if problem is not None:
            raise problem

    if video is None:
        raise decoding.finish() or Refusal(f"{stream.name}: the stream has no picture")
    return Clip(stream.name, video, checked())


def _check_unchanged(word, what):
    """Refuses a word that ffmpeg would follow, for a clip that it isn't asked to open."""
    if word is not None:
        raise Refusal(f"--filter and --chroma are for ffmpeg, which doesn't open {what}: make y4m of it first", 2)


def open_clip(path, words, is_raw=True):
    """The clip in a file. `words` may say `raw`, `chroma` and `filter`.

    With `is_raw` what is said to be raw is taken so, and y4m and streams are refused then; else what is no clip of
    another kind is raw.
    """
    source = Source(path)
    if not source.first:
        raise Refusal(f"{source.name} is empty")
    is_changed = is_raw and (words.filter is not None or words.chroma is not None)
    if words.raw is not None and is_raw and (source.is_y4m() or source.is_dirac()):
        raise Refusal(f"--raw is for raw pictures, and {source.name} is {'y4m' if source.is_y4m() else 'a stream'}", 2)
    if source.is_y4m():
        return _ffmpeg_clip(source, words) if is_changed else _y4m_clip(source.name, source, source.size)
    if source.is_dirac() or source.is_ogg_of_dirac():
        _check_unchanged(words.filter or words.chroma if is_raw else None, "a Dirac stream")
        return _decoded_clip(Stream(source))
    if words.raw is not None and (is_raw or not (source.is_container() or source.is_ogg())):
        _check_unchanged(words.filter, "raw pictures")
        return _raw_clip(source, words)
    return _ffmpeg_clip(source, words)


def with_rate(clip, rate):
    """The clip, at this rate where one is given; else at its own, which a container may have rounded."""
    clip.video = clip.video._replace(rate=rounded_rate(clip.video.rate) if rate is None else read_rate(rate))
    return clip
