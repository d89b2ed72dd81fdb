"""A small repository in a folder of its own, with the tools in it, and an rt that only pretends to prove."""
import os
import pathlib
import shutil
import subprocess
import sys
import tempfile
import unittest

TOOLS = pathlib.Path(__file__).resolve().parent.parent
sys.path.insert(0, str(TOOLS))

# An rt that keeps a list of what it proved. A crate whose text has the word "fails" isn't proved, one with "sleeps"
# takes a minute, and of one with "differs" the two compilers' programs do.
STEPS = '''
import os, pathlib, subprocess, sys, types
PROVED = os.environ["PROVED"]

class Crate:
    def __init__(self, folder, crates):
        self.folder, self.name, self.crates = str(folder), folder.name, crates
        self.is_program = (folder / "src/main.rt").is_file()

    def below(self):
        lines = pathlib.Path("crates.txt").read_text().splitlines()
        names = {line.partition(":")[0]: line.partition(":")[2].split() for line in lines}
        found = []
        for name in names[self.name]:
            low = next((one for one in self.crates if one.name == name), None)
            found += [one for one in [*low.below(), low] if one not in found] if low else []
        return found

    def count(self, pattern):
        return 10

    def ci(self, flags, tests):
        text = "".join(path.read_text() for path in sorted(pathlib.Path(self.folder, "src").iterdir()))
        with open(PROVED, "a") as log:
            log.write(f"{self.name}\\n")
        if "sleeps" in text:
            subprocess.run([sys.executable, "-c", "import time; time.sleep(60)", "--crate-name", self.name])
        if "fails" in text:
            print("fn first: not proved", file=self.out)
            return 1
        out = pathlib.Path(self.folder, "out")
        if not self.is_program:
            (out / "rlib" / f"{self.name}.rlib").mkdir(parents=True)
            return 0
        other = "other" if "differs" in text else "answer"
        for ending, said in (("", "answer"), (".by-rattle", other)):
            made = out / f"{self.name}{ending}"
            made.write_text(f"#!/bin/sh\\necho {said} $1\\n")
            made.chmod(0o755)
        return 0

def handles_of(root):
    return ()

def need(crate):
    return 1

def edits_of(crate):
    return sorted(map(str, pathlib.Path(crate.folder, "must-fail").glob("*.edit"))), []

def must_fail_all(crate, edits, flags):
    read = [(pathlib.Path(one).name, "refused" in pathlib.Path(one).read_text()) for one in edits]
    return [(is_refused, f"must-fail {crate.name}/{name}: {'refused, as it must be' if is_refused else 'NOT REFUSED'}")
            for name, is_refused in read]

def stop(why):
    sys.exit(2)

def in_lanes(tasks):
    given = {}
    for key, (waits, lines, needs, call) in tasks.items():
        assert all(one in given for one in waits)
        given[key] = call(given, 1)
    return given

def crates_below(top):
    crates = []
    crates += [Crate(path, crates) for path in sorted(pathlib.Path(top, "crates").iterdir())]
    return crates

rtlib = types.SimpleNamespace(Crate=Crate, crates_below=crates_below, guarded=lambda: [])
'''
# An rt that has no steps: it proves all at once.
WHOLE = '''
import os, pathlib, sys
if __name__ == "__main__":
    assert sys.argv[1:] == ["ci"]
    with open(os.environ["PROVED"], "a") as log:
        log.write("whole\\n")
    for path in sorted(pathlib.Path("crates").iterdir()):
        print(f"== {path.name}\\nrt: {path.name} proved", flush=True)
    made = pathlib.Path("crates/tool/out/tool")
    made.parent.mkdir(parents=True)
    made.write_text("#!/bin/sh\\necho answer\\n")
    made.chmod(0o755)
'''
# An rt that keeps what it proved by itself, and the first crate of an earlier run.
KEEPING = "class Kept: pass\n" + WHOLE.replace(
    "{path.name} proved", "{path.name} {'is kept: an earlier run' if path.name == 'low' else 'proved'}")


class Repository(unittest.TestCase):
    """A repository of four crates, of which the program stands on two, and an rt beside it."""

    PROGRAM = "tool"

    def setUp(self):
        room = tempfile.TemporaryDirectory()
        self.addCleanup(room.cleanup)
        self.room = pathlib.Path(room.name)
        self.top, self.cache = self.room / "top", self.room / "cache"
        shutil.copytree(TOOLS, self.top / "tools", ignore=shutil.ignore_patterns("tests", "front", "__pycache__"))
        (self.top / "crates.txt").write_text(f"low:\nmiddle: low of_the_kit\nother: low\n{self.PROGRAM}: middle\n")
        (self.top / "HANDLES").write_text("Handles allowed: none.\n")
        for name in ("low", "middle", "other"):
            self.write(name, "src/lib.rt", "code\n")
        self.write(self.PROGRAM, "src/main.rt", "code\n")
        self.write("low", "must-fail/one.edit", "edit\n")
        self.write("low", "more-edits/one.edit", "edit\n")
        self.make_rt(STEPS)

    def write(self, name, path, text):
        file = self.top / "crates" / name / path
        file.parent.mkdir(parents=True, exist_ok=True)
        file.write_text(text)

    def make_rt(self, text):
        file = self.room / "bin" / "rt"
        file.parent.mkdir(exist_ok=True)
        file.write_text(f"#!{sys.executable}\n{text}")
        file.chmod(0o755)

    def environment(self, path=None):
        path = path or f"{self.room / 'bin'}:{os.environ['PATH']}"
        log = str(self.room / "log")
        return {"PATH": path, "HOME": str(self.room), "XDG_CACHE_HOME": str(self.cache), "PROVED": log}

    def start(self, *words, **how):
        """A tool of the repository, begun on these words."""
        words = [sys.executable, str(self.top / "tools" / words[0]), *words[1:]]
        both = {"stdout": subprocess.PIPE, "stderr": subprocess.PIPE}
        return subprocess.Popen(words, env=self.environment(**how), cwd=self.top, text=True, **both)

    def call(self, *words, **how):
        """The status of a tool, and both of what it wrote."""
        command = self.start(*words, **how)
        return command.communicate() + (command.returncode,)

    def proved(self):
        """The crates that rt was to prove since the last call."""
        log = self.room / "log"
        names = log.read_text().split() if log.exists() else []
        log.unlink(missing_ok=True)
        return names

    def begun(self, name):
        """How often rt has begun to prove a crate."""
        log = self.room / "log"
        return log.read_text().split().count(name) if log.exists() else 0
