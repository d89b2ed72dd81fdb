#!/usr/bin/env python3
"""Measures short streams that ask for much: time and peak memory of `decode`, or `list`, beside what is shown.

bombs.py PROGRAM        PROGRAM is dirac_tool, built (`./run list < /dev/null` builds it at
                        crates/dirac_tool/out/dirac_tool)

Times are the processor's (user and system), memory is the peak of the process; each run once. Prints a row of a table a
stream. Ends with 1 where a run ends otherwise than it is to.
"""
import os
import pathlib
import subprocess
import sys
import tempfile

sys.dont_write_bytecode = True

FOLDER = pathlib.Path(__file__).resolve().parent
sys.path.insert(0, str(FOLDER.parent / "conformance"))

from writer import INTER_1, INTER_2, INTRA, INTRA_UNLISTED, PADDING, Bits, Residual, Stream, picture_header

LARGEST = (4096, 2304)
BANDS = {depth: 3 * (3 * depth + 1) for depth in range(1, 6)}


def empty(depth=1):
    """All bands have length 0."""
    return Residual(lambda *_: None, None, 0, depth)


def opened(size, chroma=0):
    return Stream().sequence(size, chroma)


def intra_of_short_bands(made, number, byte, depth=1):
    """Each band has a block of one byte, so that each coefficient is decoded."""
    bits = picture_header(Bits(), INTRA, number, (), 0).align().unsigned(0, depth).flag(0)
    for _ in range(BANDS[depth]):
        bits.align().unsigned(1, 0).align().bytes(bytes([byte]))
    return made.unit(INTRA, bits.payload())


def inter_of_short_lists(made, code, number, offsets, blocks, byte):
    """Each list of the block table is one byte; the zero residual flag is set."""
    bits = picture_header(Bits(), code, number, offsets, 0).align()
    bits.unsigned(*blocks).unsigned(2).flag(0).unsigned(0).flag(0)
    for _ in range(2 + 2 * len(offsets) + 3):
        bits.align().unsigned(1).align().bytes(bytes([byte]))
    return made.unit(code, bits.align().flag(1).payload())


def single_picture(depth):
    return opened(LARGEST).intra(0, empty(depth), INTRA_UNLISTED).end().data


# The bytes below are such that the largest picture has no fault: found by trying all of them.


def short_bands(depth):
    return intra_of_short_bands(opened(LARGEST), 0, {1: 0x12, 4: 0x28}[depth], depth).end().data


def inter_picture(blocks, byte):
    made = opened(LARGEST).intra(0, empty())
    return inter_of_short_lists(made, INTER_1, 1, (-1,), blocks, byte).data


def two_references(blocks, byte):
    made = opened(LARGEST).intra(0, empty())
    return inter_of_short_lists(made, INTER_2, 1, (-1, -1), blocks, byte).data


def many_sequences(count):
    one = opened((1, 1)).intra(0, empty()).end().data
    return count * one


def padding(count):
    unit = Stream().unit(PADDING, b"").data
    return count * unit + Stream().end().data


def headers_alone(count):
    return count * opened(LARGEST).end().data


def grey(count, size):
    made = opened(size)
    for number in range(count):
        made.intra(number, empty(), INTRA_UNLISTED)
    return made.end().data


def bombs():
    """A name, a command, how the stream is made, and the status that it ends with."""
    one = (0, 1, 1, 1, 1)
    yield "4,096 by 2,304, 4:4:4: one picture, all bands empty, depth 1", "decode", lambda: single_picture(1), 0
    yield "the same, depth 5", "decode", lambda: single_picture(5), 0
    yield "the same, each band a byte, depth 1", "decode", lambda: short_bands(1), 0
    yield "the same, depth 4", "decode", lambda: short_bands(4), 0
    what = "an empty picture and one of one reference, block index 2, each list a byte"
    yield what, "decode", lambda: inter_picture((2,), 0x55), 4
    yield "the same, blocks of 1 by 1", "decode", lambda: inter_picture(one, 0x55), 4
    yield "the same, of two references", "decode", lambda: two_references(one, 0x09), 4
    yield "300 pictures of 704 by 576, all bands empty", "decode", lambda: grey(300, (704, 576)), 0
    yield "100,000 sequences of a picture of 1 by 1", "decode", lambda: many_sequences(100_000), 0
    yield "100,000 sequences of 4,096 by 2,304 without a picture", "decode", lambda: headers_alone(100_000), 0
    yield "a million units of 13 bytes", "decode", lambda: padding(1_000_000), 0
    yield "the same", "list", lambda: padding(1_000_000), 0


class Cost:
    def __init__(self, program, command, path):
        with open(path, "rb") as given, tempfile.TemporaryFile() as said:
            counter = subprocess.Popen(["wc", "-c"], stdin=subprocess.PIPE, stdout=subprocess.PIPE)
            child = subprocess.Popen([program, command], stdin=given, stdout=counter.stdin, stderr=said)
            counter.stdin.close()
            _, status, usage = os.wait4(child.pid, 0)
            self.shown = int(counter.stdout.read())
            counter.wait()
            said.seek(0)
            self.text = said.read().decode().strip().replace("\n", "; ")
        self.status = os.waitstatus_to_exitcode(status)
        self.seconds = usage.ru_utime + usage.ru_stime
        self.megabytes = usage.ru_maxrss / 1024


def main():
    if sys.argv[1:2] == ["--write"]:
        # in a process of its own, since a child's peak isn't below its parent's
        _, _, make, _ = list(bombs())[int(sys.argv[2])]
        sys.stdout.buffer.write(make())
        return
    if len(sys.argv) != 2:
        sys.exit("usage: bombs.py PROGRAM")
    print("| Stream | Bytes | Command | Shown, MB | Time, s | Peak memory, MB | Ends |")
    print("|---|---|---|---|---|---|---|")
    failed = False
    with tempfile.TemporaryDirectory() as name:
        path = pathlib.Path(name, "stream")
        for number, (what, command, _, status) in enumerate(bombs()):
            with open(path, "wb") as out:
                subprocess.run([sys.executable, __file__, "--write", str(number)], stdout=out, check=True)
            cost = Cost(sys.argv[1], command, path)
            cells = [what, f"{path.stat().st_size:,}", f"`{command}`", f"{cost.shown / 1e6:.1f}", f"{cost.seconds:.2f}"]
            cells += [f"{cost.megabytes:.0f}", cost.text.split("; ")[-1] or f"status {cost.status}"]
            print("| " + " | ".join(cells) + " |", flush=True)
            failed |= cost.status != status
    sys.exit(1 if failed else 0)


if __name__ == "__main__":
    main()
