#!/usr/bin/env python3
"""Makes a y4m stream of the raw pictures that `./run decode` writes. (`./dirac decode` does it by itself.)

raw_to_y4m.py STREAM.drc < PICTURES.yuv > CLIP.y4m
raw_to_y4m.py WIDTH HEIGHT [CHROMA [RATE]] < PICTURES.yuv > CLIP.y4m

STREAM.drc is the stream that was decoded, whose header says size, chroma format, rate, pixel aspect and range. Else
CHROMA is 0 for 4:4:4, 1 for 4:2:2, 2 for 4:2:0 (2 where none is given), and RATE pictures a second as 25 or 30000:1001
(25 where none is given). Fields stay pictures of their own.

./run decode < CLIP.drc | python3 tools/raw_to_y4m.py CLIP.drc | ffplay -
"""
import re
import sys

sys.dont_write_bytecode = True

from front import y4m
from front.clips import read_raw_pictures
from front.formats import CHROMA_FORMATS, PROGRESSIVE, Video, check_size, read_rate
from front.plain import decoder
from front.refusal import Refusal
from front.sequence import read_header
from front.sources import open_stream
from front.units import SEQUENCE_HEADER, read_units

USAGE = "usage: raw_to_y4m.py STREAM.drc | WIDTH HEIGHT [CHROMA [RATE]]"


def video_of_stream(path):
    """What a stream's first header says of its pictures."""
    try:
        for unit in read_units(open_stream(path)):
            if unit.code == SEQUENCE_HEADER:
                return read_header(unit.payload).pictures()._replace(scan=PROGRESSIVE)
    except (decoder.StreamFault, decoder.Fault) as fault:
        raise Refusal(f"{path}: {fault.cause}: no sequence header can be read") from None
    raise Refusal(f"{path}: there is no sequence header")


def video_of_words(words):
    words = words + ["2", "25"][len(words) - 2 :] if 2 <= len(words) <= 4 else []
    if len(words) != 4 or not all(re.fullmatch("[0-9]{1,4}", word) for word in words[:3]):
        raise Refusal(USAGE, 2)
    width, height, chroma = map(int, words[:3])
    if chroma >= len(CHROMA_FORMATS):
        raise Refusal(f"chroma format {chroma}: 0 is 4:4:4, 1 is 4:2:2, 2 is 4:2:0")
    check_size(width, height, chroma)
    return Video(width, height, chroma, read_rate(words[3]), aspect=None, signal=None)


def main():
    words = sys.argv[1:]
    video = video_of_stream(words[0]) if len(words) == 1 else video_of_words(words)
    sys.stdout.buffer.write(y4m.spell_header(video))
    for picture in read_raw_pictures(sys.stdin.buffer, video.picture_length()):
        sys.stdout.buffer.write(y4m.FRAME + picture)


if __name__ == "__main__":
    try:
        main()
    except Refusal as problem:
        print(f"raw_to_y4m.py: {problem.text}", file=sys.stderr)
        sys.exit(problem.status)
    except BrokenPipeError:
        sys.stderr.close()
        sys.exit(1)
