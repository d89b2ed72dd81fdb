#!/usr/bin/env python3
"""Tells the SHA-256 of the program that ./run built, and whether README.md names it.

sum_of_program.py [--again] [PROGRAM]       PROGRAM is dirac_tool where none is given

README.md names a sum of the text that it stands beside by a line with `SHA-256` and, behind it, the sum in back quotes.
With --again the program is built a second time, by the same steps, of a copy of the sources in a new folder, and both
are compared. Where rt keeps what it proved on this machine, that build goes fast; who wants one from nothing makes it
on another machine, and compares the sums.

Ends with 1 where the program isn't there or isn't of these sources, where README.md names another sum, or where the
second build differs.
"""
import argparse
import hashlib
import os
import pathlib
import re
import shutil
import subprocess
import sys
import tempfile

import build
import crate_list

TRIED_ON = "make --count=1 --width=8 --height=8 --depth=1".split()
LEFT_OUT = shutil.ignore_patterns("out", "must-fail", "more-edits", "__pycache__")


def fail(text):
    sys.exit(f"sum_of_program.py: {text}")


def sum_of(path):
    return hashlib.sha256(path.read_bytes()).hexdigest()


def named_sums(top):
    """The sums that README.md names."""
    text = (top / "README.md").read_text(encoding="utf-8") if (top / "README.md").is_file() else ""
    return re.findall(r"SHA-256\s+(?:is\s+)?`([0-9a-f]{64})`", text)


def built_again(top, program, words):
    """The sum of the program of a second build, in a folder of its own."""
    with tempfile.TemporaryDirectory() as room:
        copy, environment = pathlib.Path(room) / "copy", {**os.environ, "XDG_CACHE_HOME": room}
        for name in ("tools", "crates"):
            shutil.copytree(top / name, copy / name, ignore=LEFT_OUT)
        for name in ("crates.txt", "HANDLES"):
            shutil.copy(top / name, copy)
        command = [sys.executable, copy / "tools" / "build.py", program, *words]
        if subprocess.run(command, stdin=subprocess.DEVNULL, env=environment).returncode:
            fail("the second build failed")
        return sum_of(copy / "crates" / program / "out" / program)


def main():
    reader = argparse.ArgumentParser(description=__doc__, formatter_class=argparse.RawDescriptionHelpFormatter)
    reader.add_argument("--again", action="store_true")
    reader.add_argument("program", nargs="?", default="dirac_tool")
    given, top = reader.parse_args(), crate_list.TOP
    words = TRIED_ON if given.program == "dirac_tool" else []
    there = build.Build(top, given.program, words)
    path = there.out / given.program
    if not there.is_current(there.sum()):
        fail(f"{path.relative_to(top)} isn't there, or was built of other sources: ./run list < /dev/null builds it")
    found, status = sum_of(path), 0
    print(f"{found}  {path.relative_to(top)}")
    for named in named_sums(top):
        print(f"README.md names {'it' if named == found else 'another one: ' + named}")
        status = status or int(named != found)
    if given.again:
        other = built_again(top, given.program, words)
        print(f"the second build gave {'the same' if other == found else 'another one: ' + other}")
        status = status or int(other != found)
    sys.exit(status)


if __name__ == "__main__":
    main()
