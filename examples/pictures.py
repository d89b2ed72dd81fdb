#!/usr/bin/env python3
"""Writes the raw pictures that moving.drc was made of: 176 by 144, 4:2:0, a ball that rolls over hills.

pictures.py [COUNT] > moving.yuv        COUNT is 4 where none is given
"""
import math
import sys

WIDTH, HEIGHT = 176, 144


def blend(under, over, part):
    return tuple(a + (b - a) * part for a, b in zip(under, over))


def cover(distance):
    """How much of a pixel is inside, where its centre is so far inside of an edge."""
    return max(0.0, min(1.0, distance + 0.5))


def colour(x, y, time):
    """Red, green and blue at a point, 0 to 255."""
    here = blend((70, 130, 210), (235, 225, 200), y / HEIGHT)
    sun = 15 - math.hypot(x - 138, y - 30)
    here = blend(here, (255, 240, 170), cover(sun))
    far = y - (86 + 10 * math.sin((x + 2 * time) / 21) + 5 * math.sin(x / 9))
    here = blend(here, (110, 140, 120), cover(far))
    near = y - (112 + 7 * math.sin((x + 6 * time) / 27))
    here = blend(here, (60, 120, 50), cover(near))
    left, top = 40 + 14 * time, 92 - 5 * math.sin(time)
    inside = 18 - math.hypot(x - left, y - top)
    angle = math.atan2(y - top, x - left) - 0.7 * time
    shade = (215, 60, 50) if math.sin(3 * angle) > 0 else (245, 240, 235)
    light = 1 - 0.25 * max(0.0, math.hypot(x - left + 6, y - top + 7) / 24)
    return blend(here, tuple(light * part for part in shade), cover(inside))


def planes(time):
    pixels = [[colour(x + 0.5, y + 0.5, time) for x in range(WIDTH)] for y in range(HEIGHT)]
    luma = bytes(round(0.299 * r + 0.587 * g + 0.114 * b) for row in pixels for r, g, b in row)
    chroma = [bytearray(), bytearray()]
    for y in range(0, HEIGHT, 2):
        for x in range(0, WIDTH, 2):
            four = pixels[y][x], pixels[y][x + 1], pixels[y + 1][x], pixels[y + 1][x + 1]
            r, g, b = (sum(pixel[n] for pixel in four) / 4 for n in range(3))
            chroma[0].append(round(128 - 0.168736 * r - 0.331264 * g + 0.5 * b))
            chroma[1].append(round(128 + 0.5 * r - 0.418688 * g - 0.081312 * b))
    return luma + bytes(chroma[0]) + bytes(chroma[1])


def main():
    if len(sys.argv) > 2 or not all(word.isdigit() for word in sys.argv[1:]):
        sys.exit("usage: pictures.py [COUNT]")
    for number in range(int(sys.argv[1]) if len(sys.argv) == 2 else 4):
        sys.stdout.buffer.write(planes(number))


if __name__ == "__main__":
    main()
