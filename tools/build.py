#!/usr/bin/env python3
"""Proves and builds a program of this repository by the gate's steps, over the crates that it stands on and no others.

build.py PROGRAM [WORD...]      PROGRAM is a crate of crates.txt, such as dirac_tool; the words are what it is tried on,
                                and it must end with 0 on them

The crates are copied, without must-fail edits, into a folder below ${XDG_CACHE_HOME:-~/.cache}, proved there as `rt ci`
proves them (prove_kept.py; with an rt that it can't take apart by a plain `rt ci`), and the program is copied back to
crates/PROGRAM/out: PROGRAM as LLVM builds it, which is the faster one, and PROGRAM.by-rattle. Then the folder is
removed. Broken off at any place and begun again it goes on with the crates that weren't proved.

As many crates are proved at a time as there are processors and as rt reckons that memory has room for; RT_JOBS=N in the
environment says how many instead. Writes to standard error, a line at least each half minute. The whole log is
crates/PROGRAM/out/build.log. Ends with 1 where a crate isn't proved.
"""
import os
import shutil
import subprocess
import sys
import time

import crate_list
import prove_kept
import proving


def fail(text):
    print(f"build.py: {text}", file=sys.stderr)
    sys.exit(1)


class Build(proving.Proving):
    def __init__(self, top, program, words):
        self.program, self.words, self.out = program, words, top / "crates" / program / "out"
        super().__init__(top, [program], program, self.out / "build.log")

    def sum(self):
        """A sum of all that the program is made of."""
        return prove_kept.sums_of(self.top, [self.program], [])[self.program]

    def is_current(self, program_sum):
        """Whether the program that is there was built of just these sources."""
        made = self.out / f"{self.program}.made"
        return (self.out / self.program).is_file() and made.is_file() and made.read_text() == program_sum

    def answer(self, program):
        """The status and the output of a program on the words that it is tried on."""
        done = subprocess.run([program, *self.words], stdin=subprocess.DEVNULL, capture_output=True, cwd=self.folder)
        return done.returncode, done.stdout, done.stderr

    def take_program(self, begun, program_sum):
        """Puts the program where `run` looks, once it ended with 0 and the other compiler's answered alike."""
        made = self.folder / "crates" / self.program / "out"
        names = [name for name in (self.program, f"{self.program}.by-rattle") if (made / name).is_file()]
        answers = [self.answer(made / name) for name in names]
        if not answers or answers[0][0] != 0 or answers[-1] != answers[0]:
            fail(f"the program isn't taken: tried on {' '.join(self.words)}, it answered {answers}")
        # the other one first, so that the program is there only once all else is
        for name in reversed(names):
            shutil.copy(made / name, self.out / f"{name}.part")
            os.replace(self.out / f"{name}.part", self.out / name)
        (self.out / f"{self.program}.made").write_text(program_sum)
        self.mark(begun)

    def mark(self, begun):
        """Says of the program that it is as new as the sources were that were read at this time."""
        os.utime(self.out / self.program, (begun, begun))

    def build(self):
        """Proves and builds the program where what is there isn't current."""
        begun, program_sum = time.time(), self.sum()
        if self.is_current(program_sum):
            return self.mark(begun)
        kept = self.prepare()
        count = proving.plural(len(self.names), "crate")
        again = f"; proved before and kept: {kept}" if kept else ""
        self.tell(f"{self.program} is to be built: {count} to prove, itself and all that it stands on{again}")
        if self.prove():
            print("".join(self.failures or self.tail()), file=sys.stderr)
            fail(f"not built; the whole log is {self.log}")
        self.take_program(begun, program_sum)
        self.remove_folder()
        return self.tell(f"{self.program} is built")


def main():
    if len(sys.argv) < 2:
        fail("usage: build.py PROGRAM [WORD...]")
    if sys.argv[1] not in crate_list.read_crates():
        fail(f"no crate {sys.argv[1]} in crates.txt")
    if not shutil.which("rt"):
        fail("no command rt: the toolchain isn't there")
    build = Build(crate_list.TOP, sys.argv[1], sys.argv[2:])
    build.out.mkdir(parents=True, exist_ok=True)
    with build.alone():
        try:
            build.build()
        except OSError as error:
            fail(f"{error}; the crates are proved in {build.folder}, and XDG_CACHE_HOME names another place")


if __name__ == "__main__":
    main()
