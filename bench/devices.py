#!/usr/bin/env python3
"""Runs the program as it is built where devices fail and memory is refused, and looks at its status, text and output.

devices.py PROGRAM              each row of a table: standard input that can't be read, outputs that are full, closed or
                                whose reader has gone, a file that can't be made, and every other answer
devices.py PROGRAM --memory     refuses each allocation in turn, one a run, of some runs (wants `cc`)
devices.py PROGRAM --damaged [COUNT [SEED]]     decodes COUNT streams (2000), damaged ones and a few of large pictures,
                                twice: as they are, and with the address space limited to 1 GB

PROGRAM is dirac_tool, built (`./run list < /dev/null` builds it at crates/dirac_tool/out/dirac_tool). Prints a row of a
table for each run or kind of runs, and each that isn't as it is to be; ends with 1 where there is one.

What is to be: the answer of the row; where memory is refused, that or `no memory` with status 11. What came out is
what comes out where nothing fails, or a front of it.
"""
import collections
import os
import pathlib
import random
import resource
import subprocess
import sys
import tempfile
from typing import NamedTuple

sys.dont_write_bytecode = True

FOLDER = pathlib.Path(__file__).resolve().parent
sys.path.insert(0, str(FOLDER / "reference"))

import bombs
import compare

LONGEST_RUN = 300
NO_MEMORY = (11, "no memory\n")
ADDRESS_SPACE = 2**30
LARGE = 0.01

PARSE_INFO = "42424344"
SEQUENCE = f"{PARSE_INFO}00 00000013 00000000 6FC183083079"
STREAM = bytes.fromhex(
    f"{SEQUENCE} {PARSE_INFO}0C 0000001F 00000013 00000000 80 90 {12 * '80'} {PARSE_INFO}0D 00000020 0000001F"
    f"00000001 38 6D00 20FE 20FE 20FE 20FE 80808080 {PARSE_INFO}10 00000000 00000020"
)
SMALL = bytes.fromhex(
    f"{PARSE_INFO}00 00000012 00000000 6FDBC5BC80 {PARSE_INFO}0C 00000021 00000012 00000000 80 0900 302E {11 * '80'}"
    f"{PARSE_INFO}10 00000000 00000021"
)
MIDDLE = bytes.fromhex(
    f"{PARSE_INFO}00 00000010 00000000 6F6010 {PARSE_INFO}08 0000001E 00000010 00000000 90 {12 * '80'}"
    f"{PARSE_INFO}10 00000000 0000001E"
)
END = bytes.fromhex(f"{PARSE_INFO}10 00000000 00000000")
GREY = bytes([0x80])
SIZES = ["--width=8", "--height=8", "--depth=1"]
LINE = b"0 0 10 end 0 0\n"
TALLY = "pictures=2 references=2\n"


class Row(NamedTuple):
    """A run; `source`, `out` and `err` name a device, or `source` holds what is read, and `out` what is to come out.

    `text` is what is to come on standard error.
    """

    what: str
    words: list
    source: object
    out: object
    status: int
    text: str = ""
    err: str = "pipe"


def rows(folder):
    encode = ["encode", *SIZES]
    missing, recon = folder / "missing" / "file", folder / "recon"
    two = 192 * GREY
    yield Row("`list`, all is well", ["list"], END, LINE, 0)
    yield Row("`decode`, all is well", ["decode"], STREAM, two, 0, TALLY)
    yield Row("no words", [], END, b"", 2, "usage: word 0\n")
    yield Row("a word too many", ["decode", "--x=1"], END, b"", 2, "usage: word 1\n")
    yield Row("a name twice", ["encode", "--width=8", "--width=8"], END, b"", 2, "usage: word 2\n")
    yield Row("a setting out of its range", ["encode", "--width=7", "--height=8"], two, b"", 3, "bad setting width=7\n")
    text = "pictures=1 references=1\nfault unit=2 at=50 cause=MissingEnd\n"
    yield Row("`decode`, a stream cut off", ["decode"], STREAM[:50], two[:96], 4, text)
    yield Row("`list`, a byte too many", ["list"], END + b"B", LINE, 4, "fault unit=1 at=14 cause=Truncated\n")
    yield Row("bytes left over", encode, two + b"last", STREAM, 5, "partial picture: 4 bytes\n")
    yield Row("a unit too long", [*encode, "--unit_bytes=30"], two, STREAM[:19], 6, "unit too long: picture 0\n")
    one = STREAM[:50] + END[:9] + bytes([0, 0, 0, 31])
    yield Row("too many pictures", [*encode, "--pictures=1"], two, one, 7, "too many pictures\n")
    for command in (["list"], ["decode"], encode):
        for device in ("a folder", "closed"):
            yield Row(f"`{command[0]}`, standard input is {device}", command, device, b"", 8, "read fault\n")
        source = two if command == encode else STREAM
        for device in ("full", "gone", "closed"):
            yield Row(f"`{command[0]}`, standard output is {device}", command, source, device, 9, "write fault\n")
    words = [*encode, f"--recon={folder / 'beside'}"]
    yield Row("`encode --recon`, standard output is closed", words, two, "closed", 9, "write fault\n")
    words = [*encode, f"--recon={folder / 'over'}"]
    yield Row("`encode --recon`, standard error is closed", words, two + b"two", STREAM, 5, err="closed")
    yield Row("`list` of one line, full", ["list"], END, "full", 9, "write fault\n")
    yield Row("`make`, standard output is full", ["make", *SIZES, "--count=1"], b"", "full", 9, "write fault\n")
    yield Row("the file of `--recon` is full", [*encode, "--recon=/dev/full"], two, STREAM, 10, "side fault\n")
    text = "cannot make recon file\n"
    yield Row("the file of `--recon` has no folder", [*encode, f"--recon={missing}"], two, b"", 12, text)
    yield Row("the file of `--recon` is a folder", [*encode, f"--recon={folder}"], two, b"", 12, text)
    words = ["encode", "--width=7", f"--recon={missing}"]
    yield Row("a bad setting comes before the file", words, two, b"", 3, "bad setting width=7\n")
    yield Row("`decode`, standard error is full", ["decode"], STREAM, two, 10, err="full")
    yield Row("`decode`, standard error is closed", ["decode"], STREAM, two, 10, err="closed")
    yield Row("a fault, standard error is full", ["list"], END + b"B", LINE, 4, err="full")
    yield Row("no words, standard error is closed", [], END, b"", 2, err="closed")
    yield Row("standard output and error are full", ["decode"], STREAM, "full", 9, err="full")
    yield Row("all is well with `--recon`", [*encode, f"--recon={recon}"], two, STREAM, 0)


class Device:
    """What stands at a file descriptor of a run."""

    def __init__(self, kind):
        self.closes, self.handle, self.other = kind == "closed", subprocess.DEVNULL, None
        if kind == "full":
            self.handle = os.open("/dev/full", os.O_WRONLY)
        elif kind == "gone":
            read, self.handle = os.pipe()
            os.close(read)
        elif kind == "a folder":
            self.handle = os.open("/", os.O_RDONLY)
        elif kind != "closed":
            self.handle = subprocess.PIPE

    def close(self):
        if self.handle not in (subprocess.PIPE, subprocess.DEVNULL):
            os.close(self.handle)


def run_row(program, row):
    devices = [Device("pipe" if isinstance(kind, bytes) else kind) for kind in (row.source, row.out, row.err)]

    def prepare():
        for number, device in enumerate(devices):
            if device.closes:
                os.close(number)

    source = row.source if isinstance(row.source, bytes) else None
    done = subprocess.run(
        [program, *row.words],
        stdin=devices[0].handle if source is None else None,
        input=source,
        stdout=devices[1].handle,
        stderr=devices[2].handle,
        preexec_fn=prepare,
        timeout=LONGEST_RUN,
    )
    for device in devices:
        device.close()
    return done


def wrong_in(row, done):
    """What isn't as the row says."""
    wrong = []
    if done.returncode != row.status:
        wrong.append(f"status {done.returncode}, expected {row.status}")
    if row.err == "pipe" and done.stderr.decode() != row.text:
        wrong.append(f"standard error {done.stderr!r}, expected {row.text!r}")
    if isinstance(row.out, bytes) and done.stdout != row.out:
        wrong.append(f"{len(done.stdout)} bytes came out, expected {len(row.out)} or other ones")
    return wrong


def try_rows(program):
    print("| What | Status | On standard error |")
    print("|---|---|---|")
    differing = 0
    with tempfile.TemporaryDirectory() as name:
        folder = pathlib.Path(name)
        for row in rows(folder):
            done = run_row(program, row)
            wrong = wrong_in(row, done)
            differing += bool(wrong)
            text = f"`{row.text.strip()}`".replace("\n", "`, `") if row.text else ""
            print(f"| {row.what} | {done.returncode} | {text if row.err == 'pipe' else f'{row.err}'} |", flush=True)
            for line in wrong:
                print(f"DIFFERS: {row.what}: {line}")
        if (folder / "recon").read_bytes() != 192 * GREY:
            print("DIFFERS: the file of --recon")
            differing += 1
        beside = folder / "beside"
        if beside.exists() and not (192 * GREY).startswith(beside.read_bytes()):
            print("DIFFERS: the file of --recon, where standard output is closed, holds something else")
            differing += 1
        if (folder / "over").read_bytes() != 192 * GREY:
            print("DIFFERS: the file of --recon, where standard error is closed")
            differing += 1
    return differing


# Memory


def memory_runs(folder):
    """Names, words and input of the runs whose allocations are refused."""
    encode = ["encode", *SIZES]
    recon = f"--recon={folder / 'recon'}"
    yield "`list` of an end unit", ["list"], END
    yield "`decode` of a grey picture of 176 by 144", ["decode"], MIDDLE
    yield "`encode` of two pictures of 8 by 8", [*encode, recon], 192 * GREY
    yield "`decode` of these", ["decode"], STREAM
    haar = ["encode", "--width=2", "--height=2", "--chroma=0", "--wavelet=3", "--depth=1", "--index=0"]
    yield "`encode` of a picture of 2 by 2", haar, bytes(4 * [0x81] + 8 * [0x80])
    yield "`decode` of it", ["decode"], SMALL
    yield "`decode` of a fault", ["decode"], STREAM[:50]
    inter = (FOLDER.parent / "conformance" / "streams" / "shapes_of_two_420.drc").read_bytes()
    yield "`decode` of five pictures with two references", ["decode"], inter
    yield "`encode` of five pictures, two references", [*encode, "--gop=5", recon], bytes(range(240)) * 2
    yield "`make` of two pictures", ["make", *SIZES, "--count=2"], b""
    yield "a bad setting", ["encode", "--width=7", "--height=8"], b""


def refused_run(program, words, source, number, library, counted, recon):
    """A run whose allocation of this number is refused; and how many there were."""
    counted.write_bytes(bytes(8))
    recon.unlink(missing_ok=True)
    environment = {"LD_PRELOAD": str(library), "REFUSED": str(number), "ALLOCATIONS": str(counted)}
    done = subprocess.run([program, *words], input=source, capture_output=True, env=environment, timeout=LONGEST_RUN)
    side = recon.read_bytes() if recon.exists() else b""
    return done, side, int.from_bytes(counted.read_bytes(), "little")


def wrong_when_refused(done, side, whole, whole_side):
    wrong = []
    if not whole.stdout.startswith(done.stdout) or not whole_side.startswith(side):
        wrong.append("what came out is no front of what comes out")
    text, whole_text = done.stderr.decode(), whole.stderr.decode()
    if done.returncode == NO_MEMORY[0]:
        if not any(whole_text.startswith(text.removesuffix(last)) for last in ("", NO_MEMORY[1])):
            wrong.append(f"standard error {text!r}")
    elif done.returncode != whole.returncode:
        wrong.append(f"status {done.returncode}, expected {whole.returncode} or {NO_MEMORY[0]}")
    elif done.stdout != whole.stdout or side != whole_side or not whole_text.startswith(text):
        wrong.append("the run's own answer without all of its output")
    return wrong


def refuse_memory(program):
    print("| Run | Allocations | `no memory` | The run's own answer |")
    print("|---|---|---|---|")
    differing = 0
    with tempfile.TemporaryDirectory() as name:
        folder = pathlib.Path(name)
        library, counted, recon = folder / "refuse.so", folder / "count", folder / "recon"
        command = ["cc", "-O2", "-shared", "-fPIC", "-o", str(library), str(FOLDER / "refuse.c")]
        subprocess.run(command, check=True)
        for what, words, source in memory_runs(folder):
            whole, whole_side, count = refused_run(program, words, source, 0, library, counted, recon)
            statuses = collections.Counter()
            for number in range(1, count + 1):
                done, side, _ = refused_run(program, words, source, number, library, counted, recon)
                statuses[done.returncode] += 1
                for line in wrong_when_refused(done, side, whole, whole_side):
                    differing += 1
                    print(f"DIFFERS: {what}, allocation {number}: {line}")
            own = statuses[whole.returncode]
            print(f"| {what} | {count} | {statuses[NO_MEMORY[0]]} | {own} |", flush=True)
    return differing


# Damaged streams


def damaged_stream(source, streams):
    """A conformance stream or a random one, with bytes changed, mostly near its start, taken out or repeated."""
    stream = bytearray(source.choice(streams) if source.random() < 0.5 else compare.random_stream(source))
    for _ in range(source.choice([1, 1, 2, 3, 6])):
        end = min(len(stream), 60) if source.random() < 0.5 else len(stream)
        if end == 0:
            break
        place = source.randrange(end)
        kind = source.random()
        if kind < 0.5:
            stream[place] ^= 1 << source.randrange(8)
        elif kind < 0.8:
            stream[place] = source.choice([0, 255, source.randrange(256)])
        elif kind < 0.9:
            del stream[place : place + source.randrange(1, 20)]
        else:
            stream[place:place] = stream[place : place + source.randrange(1, 40)]
    return bytes(stream)


def large_stream(source):
    """Up to twelve pictures of up to the largest size, whose bands or lists are empty or of one byte."""
    size = (2 * source.randrange(1, 2049), 2 * source.randrange(1, 1153))
    made = bombs.opened(source.choice([size, bombs.LARGEST]), source.randrange(3))
    for number in range(source.randrange(1, 13)):
        kind = source.randrange(4)
        if number == 0 or kind == 0:
            made.intra(number, bombs.empty(source.randrange(1, 6)))
        elif kind == 1:
            bombs.intra_of_short_bands(made, number, source.randrange(255), source.randrange(1, 6))
        else:
            blocks = source.choice([(2,), (4,), (0, 4, 4, 4, 4)])
            code, offsets = source.choice([(bombs.INTER_1, (-1,)), (bombs.INTER_2, (-1, -number))])
            bombs.inter_of_short_lists(made, code, number, offsets, blocks, 0xFE)
    return made.end().data


def many_largest():
    """Fourteen pictures of the largest size; eight are listed and four wait, which is more than the limit allows."""
    made = bombs.opened(bombs.LARGEST)
    for number in range(14):
        made.intra(number, bombs.empty())
    return made.end().data


def limited_run(program, stream, limit):
    def prepare():
        resource.setrlimit(resource.RLIMIT_AS, (limit, limit))

    return subprocess.run(
        [program, "decode"], input=stream, capture_output=True, preexec_fn=prepare, timeout=LONGEST_RUN
    )


def limit_memory(program, count=2000, seed=1):
    """Decodes with the address space limited; what ends otherwise than with `no memory` is what comes without."""
    paths = sorted((FOLDER.parent / "conformance" / "streams").glob("*.drc"))
    streams = [path.read_bytes() for path in paths]
    statuses, differing, longest = collections.Counter(), 0, 0
    for number in range(count):
        source = random.Random(f"damaged {seed} {number}")
        stream = large_stream(source) if source.random() < LARGE else damaged_stream(source, streams)
        if number == 0:
            stream = many_largest()
        done = limited_run(program, stream, ADDRESS_SPACE)
        whole = limited_run(program, stream, 8 * ADDRESS_SPACE)
        statuses[done.returncode] += 1
        longest = max(longest, len(whole.stdout))
        is_own = (done.returncode, done.stdout, done.stderr) == (whole.returncode, whole.stdout, whole.stderr)
        is_none = done.returncode == NO_MEMORY[0] and done.stderr.decode().endswith(NO_MEMORY[1])
        if whole.returncode not in (0, 4) or not (is_own or is_none and whole.stdout.startswith(done.stdout)):
            differing += 1
            print(f"DIFFERS: seed {seed}, stream {number}: {done.returncode} {done.stderr!r}, {whole.returncode}")
    counted = ", ".join(f"status {status}: {number}" for status, number in sorted(statuses.items()))
    space = f"{ADDRESS_SPACE} bytes of address space"
    print(f"{count} damaged streams, {space}, seed {seed}: {counted}; {differing} differ")
    print(f"the longest output has {longest} bytes")
    return differing


def main():
    if len(sys.argv) < 2 or sys.argv[2:3] not in ([], ["--memory"], ["--damaged"]):
        sys.exit(__doc__)
    program = pathlib.Path(sys.argv[1]).resolve()
    if sys.argv[2:] == []:
        differing = try_rows(program)
    elif sys.argv[2] == "--memory":
        differing = refuse_memory(program)
    else:
        differing = limit_memory(program, *map(int, sys.argv[3:]))
    sys.exit(1 if differing else 0)


if __name__ == "__main__":
    main()
