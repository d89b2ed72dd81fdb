#!/usr/bin/env python3
"""Takes the raw pictures out of a y4m stream, for `./run encode`. (`./dirac encode` does it by itself.)

y4m_to_raw.py [--words] [--rate=R] < CLIP.y4m > PICTURES.yuv

Takes 8-bit 4:2:0, 4:2:2 and 4:4:4. Writes the words that `encode` needs for them to standard error, and what it has no
word for; with --words the words alone are written, to standard output, and no picture. A clip that doesn't say its
range has the limited one (--signal=2). A rate that isn't in the standard's table is refused, and so is a clip without
one; --rate=R says another, as 25 or 30000/1001.

ffmpeg -v error -i CLIP -f yuv4mpegpipe - | python3 tools/y4m_to_raw.py | ./run encode --width=720 --height=576 > X.drc
"""
import sys

sys.dont_write_bytecode = True

from front import y4m
from front.formats import FULL_RANGE, check_size, rate_index, read_rate, rounded_rate
from front.refusal import Refusal


def fail(text, status=1):
    print(f"y4m_to_raw.py: {text}", file=sys.stderr)
    sys.exit(status)


def words_of(video):
    """The words of `encode`."""
    signal = 1 if video.signal == FULL_RANGE else 2
    words = f"--width={video.width} --height={video.height} --chroma={video.chroma}"
    return f"{words} --rate={rate_index(video.rate)} --signal={signal}"


def main():
    rates = [word[7:] for word in sys.argv[1:] if word.startswith("--rate=")]
    others = [word for word in sys.argv[1:] if not word.startswith("--rate=")]
    if others not in ([], ["--words"]) or len(rates) > 1:
        fail("usage: y4m_to_raw.py [--words] [--rate=R] < CLIP.y4m", 2)
    source = sys.stdin.buffer
    video = y4m.read_header(source)
    check_size(video.width, video.height, video.chroma)
    video = video._replace(rate=read_rate(rates[0]) if rates else rounded_rate(video.rate))
    words = words_of(video)
    if others:
        print(words)
        return
    print(words, file=sys.stderr)
    if video.aspect != 1:
        aspect = f"{video.aspect.numerator}:{video.aspect.denominator}"
        print(f"y4m_to_raw.py: no word of encode says the pixel aspect {aspect}; ./dirac encode does", file=sys.stderr)
    for picture in y4m.read_pictures(source, video.picture_length()):
        sys.stdout.buffer.write(picture)


if __name__ == "__main__":
    try:
        main()
    except Refusal as problem:
        fail(problem.text)
    except BrokenPipeError:
        sys.stderr.close()
        sys.exit(1)
