#!/usr/bin/env python3
"""Makes streams for measuring.

streams.py padding MEGABYTES    a stream of padding units of 64 KiB, and an end unit
streams.py grey PICTURES        intra pictures of 704 by 576, 4:2:0, all of whose subbands are empty
streams.py long PICTURES        the same in units of 1 MiB: free bytes follow the last field
streams.py raw PICTURES [WIDTH HEIGHT CHROMA]
                                raw pictures: a slope that moves, with noise in its lowest bits; of 720 by 576, 4:2:2,
                                where no size is given
"""
import sys


def unit(code, payload, previous):
    """A unit whose next offset is its length; an end unit has next offset 0."""
    length = 13 + len(payload)
    after = 0 if code == 0x10 else length
    return b"BBCD" + bytes([code]) + after.to_bytes(4, "big") + previous.to_bytes(4, "big") + payload


def write(units):
    previous = 0
    for code, payload in units:
        piece = unit(code, payload, previous)
        sys.stdout.buffer.write(piece)
        previous = len(piece)


def padding(megabytes):
    for _ in range(megabytes * 16):
        yield 0x30, bytes(65536 - 13)
    yield 0x10, b""


def grey(pictures, free=0):
    # versions 2 and 2, profile 0, level 0, base format 6, no custom flag, frames
    yield 0x00, bytes.fromhex("6F5804")
    for number in range(pictures):
        # wavelet 0, depth 1, no partition; then four empty subbands for each of three planes
        yield 0x08, number.to_bytes(4, "big") + b"\x90" + b"\x80" * 12 + bytes(free)
    yield 0x10, b""


def long(pictures):
    # 13 bytes of parse info and 17 of fields
    return grey(pictures, (1 << 20) - 30)


CHROMA_RATIOS = [(1, 1), (2, 1), (2, 2)]


def write_raw(pictures, width=720, height=576, chroma=1):
    across, down = CHROMA_RATIOS[chroma]
    state = 1
    for number in range(pictures):
        picture = bytearray()
        for plane in range(3):
            columns, rows = (width, height) if plane == 0 else (width // across, height // down)
            for y in range(rows):
                for x in range(columns):
                    state = (state * 1103515245 + 12345) & 0x7FFFFFFF
                    picture.append((2 * x + 3 * y + 5 * number + 40 * plane + (state >> 27)) // 4 % 256)
        sys.stdout.buffer.write(picture)


def main():
    kind, *numbers = sys.argv[1:] or [""]
    makers = {"padding": (padding, 1), "grey": (grey, 1), "long": (long, 1), "raw": (write_raw, 4)}
    if kind not in makers or not all(number.isdigit() for number in numbers):
        sys.exit("usage: streams.py padding MEGABYTES | grey|long PICTURES | raw PICTURES [WIDTH HEIGHT CHROMA]")
    make, most = makers[kind]
    if len(numbers) not in (1, most):
        sys.exit(f"streams.py: {kind} takes {most} numbers")
    numbers = [int(number) for number in numbers]
    if kind == "raw":
        write_raw(*numbers)
    else:
        write(make(*numbers))


if __name__ == "__main__":
    main()
