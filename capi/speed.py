#!/usr/bin/env python3
"""Measures the C library against dirac_tool by processor time, on the same streams.

speed.py [--program=FILE] [--jevdec=FILE] [--rounds=N] [--most=RATIO] STREAM...

Both decode a stream to /dev/null, in turns, N times (9): the program as `dirac_tool decode`, and the example jevdec,
which copies the planes of each picture by jev_decoder_plane and writes them. First their bytes are compared. Printed
are the least and the median of user and system time of each, and the ratio of the least. With --most it ends with 1
where a ratio is greater.
"""
import hashlib
import os
import pathlib
import statistics
import subprocess
import sys

CAPI = pathlib.Path(__file__).resolve().parent
DEFAULTS = {
    "program": str(CAPI.parent / "crates" / "dirac_tool" / "out" / "dirac_tool"),
    "jevdec": str(CAPI / "out" / "jevdec"),
    "rounds": "9",
    "most": "",
}


def seconds(command, path):
    """User and system time of a run."""
    with open(path, "rb") as stream:
        started = subprocess.Popen(command, stdin=stream, stdout=subprocess.DEVNULL, stderr=subprocess.DEVNULL)
        _, status, used = os.wait4(started.pid, 0)
    if status:
        sys.exit(f"speed.py: {' '.join(command)} ended with {status}")
    return used.ru_utime + used.ru_stime


def sum_of(command, path):
    with open(path, "rb") as stream:
        done = subprocess.run(command, stdin=stream, stdout=subprocess.PIPE, stderr=subprocess.DEVNULL, check=True)
    return hashlib.md5(done.stdout).hexdigest()


def measure(commands, path, rounds):
    if len({sum_of(command, path) for command in commands.values()}) > 1:
        sys.exit(f"speed.py: {path}: they write other bytes")
    times = {name: [] for name in commands}
    for _ in range(rounds):
        for name, command in commands.items():
            times[name].append(seconds(command, path))
    for name, found in times.items():
        print(f"{path}: {name}: least {min(found):.3f} s, median {statistics.median(found):.3f} s")
    program, library = (min(found) for found in times.values())
    print(f"{path}: ratio {library / program:.3f}")
    return library / program


def main():
    named = {**DEFAULTS, **dict(word.lstrip("-").split("=", 1) for word in sys.argv[1:] if word.startswith("--"))}
    paths = [word for word in sys.argv[1:] if not word.startswith("--")]
    if set(named) != set(DEFAULTS) or not paths:
        sys.exit("usage: speed.py [--program=FILE] [--jevdec=FILE] [--rounds=N] [--most=RATIO] STREAM...")
    commands = {"dirac_tool decode": [named["program"], "decode"], "jevdec": [named["jevdec"]]}
    ratios = [measure(commands, path, int(named["rounds"])) for path in paths]
    sys.exit(1 if named["most"] and max(ratios) > float(named["most"]) else 0)


if __name__ == "__main__":
    main()
