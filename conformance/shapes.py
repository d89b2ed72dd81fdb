#!/usr/bin/env python3
"""Writes the data of a test of the program: the streams shapes_* of this folder.

shapes.py               writes crates/tests_commands/src/shape_streams.rt, and prints the rows of the test beside it: a
                        sum of what the plain decoder shows of each stream, and its tally; and sums of what the plain
                        encoder makes of raw pictures with some settings
shapes.py --compare     writes nothing; ends with 1 where the file isn't what would be written

The program is never asked. The test has the sums, so the rows are looked at by hand where the streams change.
"""
import pathlib
import sys

sys.dont_write_bytecode = True

FOLDER = pathlib.Path(__file__).resolve().parent
sys.path.insert(0, str(FOLDER.parent / "bench" / "reference"))

import decoder
import encoder

TARGET = FOLDER.parent / "crates" / "tests_commands" / "src" / "shape_streams.rt"
BYTES_A_LINE = 16

# settings beside width 8, height 8, and how many bytes of noise there are
ENCODINGS = [
    ({"depth": 1, "index": 0, "gop": 12, "between": 2}, 672),
    ({"depth": 2, "precision": 3, "gop": 9, "between": 3}, 960),
    ({"depth": 1, "precision": 0, "chroma": 0, "between": 1}, 960),
    ({"depth": 1, "codeblocks": 3, "finer": 9, "gop": 4}, 480),
    ({"depth": 1, "fields": 1, "between": 3, "gop": 9}, 912),
]


def sum_of(data):
    """A sum in which the place of each byte counts."""
    result = 0
    for byte in data:
        result = (31 * result + byte) % 2**32
    return result


def noise(length):
    """The noise of the program's tests."""
    state, out = 2463534242, bytearray()
    for _ in range(length):
        state = (state * 1664525 + 1013904223) % 2**32
        out.append(state >> 24)
    return bytes(out)


def streams():
    return {path.stem: path.read_bytes() for path in sorted((FOLDER / "streams").glob("shapes_*.drc"))}


def constant(name, data):
    lines = [f"pub(crate) const {name.upper()}: [u8; {len(data)}] = ["]
    for place in range(0, len(data), BYTES_A_LINE):
        lines.append("    " + ", ".join(f"0x{byte:02X}" for byte in data[place : place + BYTES_A_LINE]) + ",")
    return "\n".join([*lines, "];\n"])


def text():
    head = "// The streams of these names in conformance/, which conformance/shapes.py writes here.\n\n"
    return head + "\n".join(constant(name, data) for name, data in streams().items())


def print_rows():
    for name, data in streams().items():
        decoded = decoder.decode(data)
        assert decoded.fault is None
        tally = f"pictures={len(decoded.pictures)} references={decoded.most_references}\\n"
        print(f'({name.upper()}.as_slice(), 0x{sum_of(b"".join(decoded.pictures)):08X}, "{tally}"),')
    for values, length in ENCODINGS:
        settings = encoder.default_settings(0) | {"width": 8, "height": 8} | values
        encoded = encoder.encode(settings, noise(length))
        assert encoded.status == 0
        words = " ".join(f"--{name}={value}" for name, value in values.items())
        print(f"{words} of {length} bytes: 0x{sum_of(encoded.stream):08X}, shown 0x{sum_of(encoded.shown):08X}")


def main():
    if sys.argv[1:] not in ([], ["--compare"]):
        sys.exit("usage: shapes.py [--compare]")
    if sys.argv[1:] == []:
        TARGET.write_text(text())
        print_rows()
    elif TARGET.read_text() != text():
        sys.exit(f"shapes.py: {TARGET.name} isn't what would be written")


if __name__ == "__main__":
    main()
