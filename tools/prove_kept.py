#!/usr/bin/env python3
"""Proves the crates of a folder and builds its programs by the steps of `rt ci`, and keeps what is proved.

prove_kept.py FOLDER [CRATE...]     a folder with crates.txt, HANDLES and crates/, which nothing else works in; of these
                                    crates the edits of must-fail/ are tried, too

The `rt ci` of some kits proves everything from nothing each time, so one that is broken off leaves nothing to go on
from. This loads the command `rt`, and calls for each crate what the gate calls for it, in the gate's own lanes: as many
crates at a time as there are processors and as it reckons that memory has room for. A crate that is proved is kept with
a sum of all that went into it, and isn't proved again while that sum and those below it stay. Tests are left to the
gate. Where `rt ci` keeps each proved crate by itself, it is the better way, and nothing is done here.

It prints the lines of `rt ci`. Ends with 0 where all crates are proved and no edit is, 1 where not so, 3 where this
`rt` has no such steps, and 4 where its `rt ci` keeps what it proved.
"""
import copy
import hashlib
import importlib.machinery
import importlib.util
import os
import pathlib
import shutil
import signal
import sys
import tempfile
import threading
import time

import crate_list

PARTS = ("src", "specs", "proofs")
NO_STEPS, KEEPS_ITSELF = 3, 4
# What is taken of rt, and of the library that it stands on.
OF_RT = "Crate edits_of handles_of in_lanes must_fail_all need stop rtlib".split()
OF_LIBRARY = "Crate crates_below guarded".split()


def load_rt():
    """The command rt as a module, or None where it is none of Python."""
    path = os.path.realpath(shutil.which("rt") or "")
    try:
        loader = importlib.machinery.SourceFileLoader("rt", path)
        module = importlib.util.module_from_spec(importlib.util.spec_from_loader("rt", loader))
        loader.exec_module(module)
    except (OSError, SyntaxError, ValueError, ImportError):
        return None
    return module


def keeps_itself(rt):
    """Whether the gate of this rt keeps each crate that it proved, on this machine."""
    return rt is not None and hasattr(rt, "Kept")


def has_steps(rt):
    """Whether this rt has the steps that are called here."""
    has_all = rt is not None and all(hasattr(rt, name) for name in OF_RT) and hasattr(rt.Crate, "ci")
    return has_all and all(hasattr(rt.rtlib, name) for name in OF_LIBRARY)


def sum_around(folder):
    """A sum of what all crates are proved with: the command rt, what lies beside it, the kit's name, and HANDLES."""
    path, found = pathlib.Path(os.path.realpath(shutil.which("rt") or "")), hashlib.sha256()
    kit, handles = path.parent.parent, pathlib.Path(folder) / "HANDLES"
    for file in [path, path.with_name("rtlib.py"), kit / "KIT-ID", kit / "WHAT", handles]:
        found.update(file.read_bytes() if file.is_file() else b"none")
    return found.hexdigest()


def sum_of_crate(folder, name, sums_below, more):
    """A sum of all that a crate is proved and built from: its files and line, the crates below, what is given more."""
    found = hashlib.sha256(repr((crate_list.line_of(folder, name), sorted(sums_below), more)).encode())
    crate = pathlib.Path(folder) / "crates" / name
    for part in PARTS:
        for path in sorted((crate / part).rglob("*")):
            if path.is_file():
                found.update(repr((path.relative_to(crate).as_posix(), path.read_bytes())).encode())
    return found.hexdigest()


def sums_of(folder, names, more):
    """The sum of each of these crates, which holds those of all crates below it."""
    crates = crate_list.read_crates(folder)
    sums = {}
    for name in names:
        for one in [*crate_list.below(crates, name), name]:
            if one not in sums:
                mine = [sums[library] for library in crate_list.own_libraries(crates, one)]
                sums[one] = sum_of_crate(folder, one, mine, more)
    return sums


def mark_of(folder, name):
    """The file that says with which sum a crate was proved."""
    return pathlib.Path(folder) / "crates" / name / "out" / "kept"


def made_by(folder, name):
    """What a proved crate leaves for those above it or to be run."""
    crate = pathlib.Path(folder) / "crates" / name
    is_program = (crate / "src" / "main.rt").is_file()
    return crate / "out" / name if is_program else crate / "out" / "rlib" / f"{name}.rlib"


def sums_to_keep(folder):
    """The sum of each crate of the folder with which it is kept."""
    return sums_of(folder, crate_list.read_crates(folder), [sum_around(folder)])


def kept_crates(folder):
    """The crates that an earlier run proved, of which nothing changed since, nor of any below."""
    crates, sums, found = crate_list.read_crates(folder), sums_to_keep(folder), []
    for name in sums:
        mark, is_over_kept = mark_of(folder, name), all(one in found for one in crate_list.own_libraries(crates, name))
        if is_over_kept and mark.is_file() and mark.read_text() == sums[name] and made_by(folder, name).exists():
            found.append(name)
    return found


class Lanes:
    """The crates of the folder as tasks of the gate's lanes."""

    def __init__(self, rt, folder, edited):
        self.rt, self.folder, self.edited, self.printing = rt, folder, edited, threading.Lock()
        library = rt.rtlib
        library.stop = rt.stop
        # as in rt ci: a crate's last line is held to HANDLES, and those above a library load its statements alone
        library.Crate = rt.Crate
        rt.Crate.allowed = rt.handles_of(folder)
        rt.Crate.cuts_libraries = True
        for name in (getattr(library, "ALLOW_C", ""), getattr(library, "BACKEND", ""), "RT_SECONDS"):
            os.environ.pop(name, None)
        # its first call sets a handler for a signal, which only the main thread may
        library.guarded()
        self.crates = sorted(library.crates_below(folder), key=lambda one: len(one.below()))
        self.sums, self.kept = sums_to_keep(folder), kept_crates(folder)

    def tell(self, text):
        with self.printing:
            print(text, flush=True)

    def prove(self, crate, given, jobs):
        """Proves a crate and builds it; whether it could be."""
        if not all(given[one] for one in self.waits(crate)):
            return False
        begin, crate, status = time.monotonic(), copy.copy(crate), 1
        mark = mark_of(self.folder, crate.name)
        shutil.rmtree(mark.parent, ignore_errors=True)
        mark.parent.mkdir(parents=True)
        with tempfile.TemporaryFile("a+", errors="replace") as crate.out:
            try:
                status = crate.ci(["--jobs", str(jobs)], False)
                if status == -signal.SIGKILL:
                    print("the check was killed, most likely for memory: once more", file=crate.out)
                    status = crate.ci(["--jobs", "1"], False)
            except SystemExit:
                pass
            crate.out.seek(0)
            said = crate.out.read()
        if not status:
            part = mark.with_suffix(".part")
            part.write_text(self.sums[crate.name])
            os.replace(part, mark)
        seconds = int(time.monotonic() - begin)
        end = f"rt: {crate.name} {'proved' if not status else 'NOT PROVED'}"
        self.tell(f"== {crate.name}\n{said}took {seconds} seconds\n{end}")
        return not status

    def try_edits(self, crate, given):
        """Tries the edits of a crate in turn; whether each is refused."""
        if not given.get((crate.name, "proof"), True):
            return False
        good, bad = self.rt.edits_of(crate)
        tried = self.rt.must_fail_all(crate, good, ["--jobs", "1"])
        for _, text in tried:
            self.tell(f"rt: {text}")
        for path in bad:
            self.tell(f"rt: must-fail {crate.name}/{os.path.basename(path)}: BAD EDIT: its name isn't an edit's")
        return not bad and all(is_refused for is_refused, _ in tried)

    def waits(self, crate):
        return [(one.name, "proof") for one in crate.below() if one.name not in self.kept]

    def tasks(self):
        """What is to be done, each behind what it waits for, as the gate's lanes take it."""
        tasks = {}
        for crate in self.crates:
            lines, needs, waits = crate.count(rb"\n"), self.rt.need(crate), self.waits(crate)
            if crate.name not in self.kept:
                prove = lambda given, jobs, one=crate: self.prove(one, given, jobs)
                tasks[crate.name, "proof"] = waits, lines, needs, prove
                waits = [(crate.name, "proof")]
            if crate.name in self.edited:
                edits = lambda given, jobs, one=crate: self.try_edits(one, given)
                tasks[crate.name, "edits"] = waits, lines, needs, edits
        return tasks

    def run(self):
        for name in self.kept:
            self.tell(f"kept: {name}")
        given = self.rt.in_lanes(self.tasks())
        failed = [" ".join(key) for key, is_well in given.items() if not is_well]
        self.tell(f"FAILED: {', '.join(failed)}" if failed else "ok")
        return 1 if failed else 0


def main():
    if len(sys.argv) < 2:
        print("usage: prove_kept.py FOLDER [CRATE...]", file=sys.stderr)
        sys.exit(2)
    rt = load_rt()
    if keeps_itself(rt):
        print("prove_kept.py: rt ci keeps what it proved", file=sys.stderr)
        sys.exit(KEEPS_ITSELF)
    if not has_steps(rt):
        print("prove_kept.py: this rt has no steps to take apart", file=sys.stderr)
        sys.exit(NO_STEPS)
    folder = os.path.realpath(sys.argv[1])
    os.chdir(folder)
    sys.exit(Lanes(rt, folder, sys.argv[2:]).run())


if __name__ == "__main__":
    main()
