#!/usr/bin/env python3
"""Writes a line for each raw picture: its number and its MD5 sum; and behind them the sum of all.

md5_of_pictures.py WIDTH HEIGHT [CHROMA] < PICTURES.yuv

CHROMA is 0 for 4:4:4, 1 for 4:2:2, 2 for 4:2:0 (2 where none is given).

./run decode < CLIP.drc | python3 tools/md5_of_pictures.py 176 144
"""
import hashlib
import re
import sys

CHROMA_RATIOS = [(1, 1), (2, 1), (2, 2)]


def fail(text):
    print(f"md5_of_pictures.py: {text}", file=sys.stderr)
    sys.exit(1)


def picture_length(words):
    if len(words) not in (2, 3) or not all(re.fullmatch("[0-9]{1,4}", word) for word in words):
        fail("usage: md5_of_pictures.py WIDTH HEIGHT [CHROMA] < PICTURES.yuv")
    width, height, chroma = map(int, [*words, "2"][:3])
    if chroma >= len(CHROMA_RATIOS):
        fail(f"chroma format {chroma}: 0 is 4:4:4, 1 is 4:2:2, 2 is 4:2:0")
    across, down = CHROMA_RATIOS[chroma]
    if width < 1 or height < 1 or width % across or height % down:
        fail(f"{width} by {height} is no multiple of the chroma ratio")
    return width * height + 2 * (width // across) * (height // down)


def main():
    length = picture_length(sys.argv[1:])
    whole = hashlib.md5()
    count = 0
    while picture := sys.stdin.buffer.read(length):
        if len(picture) < length:
            fail(f"{len(picture)} bytes are left over whole pictures of {length}")
        whole.update(picture)
        print(count, hashlib.md5(picture).hexdigest())
        count += 1
    print("all", whole.hexdigest())


if __name__ == "__main__":
    try:
        main()
    except BrokenPipeError:
        sys.stderr.close()
        sys.exit(1)
