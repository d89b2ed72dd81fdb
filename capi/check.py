#!/usr/bin/env python3
"""Builds the C library and runs it, and what stands on it, over conformance/.

check.py [--may-skip] [--within=MINUTES] [--all] [--archive=FILE] [--kit=FOLDER] [--only=WORD]

--may-skip      ends with 77, and says why, where the library can't be made here for want of cc, make, rt or time;
                without this word that is a failure
--within=MINUTES    how long proving and building the library may take; without it there is no limit
--all           what is wanting of the rest (valgrind, numpy, GStreamer ..) is a failure too, and the slow parts get
                all streams
--archive=FILE  takes this archive in place of that of crates/jevmutzal, and asks no rt but for the kit's folder
--kit=FOLDER    the kit's folder, where its heap functions are
--only=WORD     the parts with WORD in their name

A part is a line: `passed`, `FAILED` with what differs, or `not run` with what is wanting. Ends with 1 where one failed.
Nothing is written but capi/out and a folder that is removed; what is there of crates is kept.
"""
import concurrent.futures
import csv
import functools
import hashlib
import os
import pathlib
import random
import re
import shutil
import signal
import subprocess
import sys
import tempfile
from typing import NamedTuple

CAPI = pathlib.Path(__file__).resolve().parent
TOP = CAPI.parent
OUT = CAPI / "out"
PIECES = (1, 7, 65536)
LONGEST_RUN = 300
SKIPPED = 77
# what a checked run ends with where the checker, and not the stream, is what it speaks of
CHECKER_FAILED = 99
SANITIZERS = {
    "ASAN_OPTIONS": f"detect_leaks=1:exitcode={CHECKER_FAILED}",
    "UBSAN_OPTIONS": f"halt_on_error=1:print_stacktrace=1:exitcode={CHECKER_FAILED}",
}
VALGRIND = ["valgrind", "-q", "--leak-check=full", "--show-leak-kinds=all", f"--error-exitcode={CHECKER_FAILED}"]
# where not all streams are taken, one of so many is; and so often each is damaged
SHARE = 8
DAMAGED = 4


class Missing(Exception):
    """What a part needs and isn't here."""


class Failure(Exception):
    """What went wrong in a part."""


class Expected(NamedTuple):
    stream: str
    status: int
    pictures: int
    md5: str
    fault: str

    @property
    def path(self):
        return TOP / "conformance" / "streams" / f"{self.stream}.drc"


def read_table():
    with open(TOP / "conformance" / "expected.tsv", newline="") as table:
        rows = list(csv.reader(table, delimiter="\t"))[1:]
    faults = [re.search(r"fault .*", row[4]) for row in rows]
    return [Expected(r[0], int(r[1]), int(r[2]), r[3], f[0] if f else "") for r, f in zip(rows, faults)]


def need(*commands):
    for command in commands:
        if shutil.which(command) is None:
            raise Missing(f"there is no {command}")


def run(words, **how):
    words = [str(word) for word in words]
    how["env"] = {**os.environ, **how.get("env", {})}
    try:
        return subprocess.run(words, stdin=subprocess.DEVNULL, capture_output=True, timeout=LONGEST_RUN, **how)
    except subprocess.TimeoutExpired:
        raise Failure(f"{' '.join(words)}: no answer in {LONGEST_RUN} seconds") from None


def succeed(words, **how):
    done = run(words, **how)
    if done.returncode:
        said = (done.stdout + done.stderr).decode(errors="replace")[-2000:]
        raise Failure(f"{' '.join(map(str, words))} ended with {done.returncode}: {said}")
    return done.stdout.decode()


def status_within(words, limit):
    """The status of a command that writes to standard error; None where it is ended after so many seconds."""
    done = subprocess.Popen(words, stdin=subprocess.DEVNULL, stdout=sys.stderr, start_new_session=True)
    try:
        return done.wait(limit)
    except subprocess.TimeoutExpired:
        os.killpg(done.pid, signal.SIGTERM)
        done.wait()
        return None
    except KeyboardInterrupt:
        os.killpg(done.pid, signal.SIGTERM)
        raise


def damage(stream, chance):
    """A stream with a few places of it changed, left out or repeated."""
    stream = bytearray(stream)
    for _ in range(chance.randint(1, 4)):
        at, length = chance.randrange(len(stream)), chance.choice((1, 1, 1, 4, 13))
        with_what = chance.choice((chance.randbytes(length), b"", stream[:length], stream[at : at + 2 * length]))
        stream[at : at + length] = with_what
    return bytes(stream)


def differences(row, done):
    """What a run of jevdec, or of a program that says the same, gave else than the table."""
    said = done.stderr.decode(errors="replace")
    fault = re.search(r"^fault .*", said, re.MULTILINE)
    found = {
        "status": (done.returncode, row.status),
        "sum": (hashlib.md5(done.stdout).hexdigest(), row.md5),
        "pictures": (re.findall(r"^pictures=(\d+)$", said, re.MULTILINE), [str(row.pictures)]),
        "fault": (fault[0] if fault else "", row.fault),
    }
    wrong = [f"{what} {is_!r}, expected {wanted!r}" for what, (is_, wanted) in found.items() if is_ != wanted]
    return wrong + ([said[-1000:]] if wrong and done.returncode == CHECKER_FAILED else [])


class Check:
    def __init__(self, words):
        self.may_skip, self.all = "--may-skip" in words, "--all" in words
        named = dict(word.lstrip("-").split("=", 1) for word in words if "=" in word)
        unknown = [it for it in words if it.split("=")[0] not in OPTIONS]
        if unknown or any(it in words for it in ("--within", "--archive", "--kit", "--only")):
            sys.exit(f"check.py: {' '.join(unknown) or 'a word wants a value'}\n{__doc__.splitlines()[2]}")
        self.archive, self.kit, self.only = named.get("archive"), named.get("kit"), named.get("only", "")
        self.within = 60 * float(named["within"]) if "within" in named else None
        self.rows = read_table()
        self.failed = self.passed = 0
        self.not_run = []

    def share(self):
        return self.rows if self.all else self.rows[::SHARE]

    def make(self, *words, **how):
        named = [f"{name}={os.path.abspath(it)}" for name, it in (("ARCHIVE", self.archive), ("KIT", self.kit)) if it]
        return succeed(["make", "-C", CAPI, *named, *words], **how)

    def streams(self, command, rows=None, pieces=PIECES, **how):
        """Runs a command, made of a piece's size and a path, over the streams in pieces of each size."""
        jobs = [(row, piece) for row in rows or self.rows for piece in pieces]
        with concurrent.futures.ThreadPoolExecutor(os.cpu_count()) as pool:
            ran = list(pool.map(lambda job: run(command(job[1], job[0].path), **how), jobs))
        wrong = [f"{row.stream}, pieces of {piece}: {'; '.join(found)}"
                 for (row, piece), done in zip(jobs, ran) for found in [differences(row, done)] if found]
        if wrong:
            raise Failure("\n  ".join([f"{len(jobs) - len(wrong)} of {len(jobs)} runs agree", *wrong[:10]]))
        return f"{len(jobs)} runs"

    def part(self, name, body):
        if self.only not in name:
            return
        try:
            said = body()
        except Missing as missing:
            self.failed += self.all
            self.not_run.append(name)
            print(f"{'FAILED' if self.all else 'not run'}: {name}: {missing}", flush=True)
        except Failure as failure:
            self.failed += 1
            print(f"FAILED: {name}: {failure}", flush=True)
        else:
            self.passed += 1
            print(f"passed: {name}{f' ({said})' if said else ''}", flush=True)

    # the parts

    def unit_tests(self):
        done = run([sys.executable, "-m", "unittest", "discover", "-s", CAPI / "tests"])
        said = done.stderr.decode()
        if done.returncode:
            raise Failure(said[-2000:])
        return said.strip().splitlines()[-3].lower()

    def header(self):
        path = CAPI / "include" / "jevmutzal.h"
        strict = ["-Wall", "-Wextra", "-Wpedantic", "-Werror", "-fsyntax-only"]
        for standard in ("c99", "c11", "c17"):
            succeed(["cc", f"-std={standard}", *strict, "-x", "c", path])
        need("c++")
        for standard in ("c++11", "c++17"):
            succeed(["c++", f"-std={standard}", *strict, "-x", "c++", path])

    def exported(self):
        need("nm")
        names = re.findall(r" T (\w+)", succeed(["nm", "-D", "--defined-only", OUT / "libjevmutzal.so"]))
        wanted = re.findall(r"^\w.* (jev_\w+)\(", (CAPI / "include/jevmutzal.h").read_text(), re.MULTILINE)
        if sorted(names) != sorted(wanted):
            raise Failure(f"the shared object exports {names}, and the header has {wanted}")

    def installed(self, folder):
        """Installs into a folder, builds the example by pkg-config, and uninstalls again."""
        need("pkg-config")
        prefix = f"{folder}/prefix"
        for words in ([f"PREFIX={prefix}"], ["PREFIX=/usr", f"DESTDIR={folder}/root"]):
            self.make("install", *words)
        environment = {"PKG_CONFIG_PATH": f"{prefix}/lib/pkgconfig", "LD_LIBRARY_PATH": f"{prefix}/lib"}
        flags = succeed(["pkg-config", "--cflags", "--libs", "jevmutzal"], env=environment).split()
        source = CAPI / "example" / "jevdec.c"
        succeed(["cc", source, "-o", f"{folder}/shared", *flags])
        static = ["-Wl,-Bstatic", "-ljevmutzal", "-Wl,-Bdynamic"]
        succeed(["cc", source, "-o", f"{folder}/static", *[it for it in flags if it != "-ljevmutzal"], *static])
        for name in ("shared", "static"):
            command = lambda piece, path: [f"{folder}/{name}", "-p", piece, path]
            self.streams(command, pieces=PIECES[-1:], env=environment)
        for words in ([f"PREFIX={prefix}"], ["PREFIX=/usr", f"DESTDIR={folder}/root"]):
            self.make("uninstall", *words)
        left = [path for root in ("prefix", "root") for path in pathlib.Path(folder, root).rglob("*")]
        left = [path for path in left if not path.is_dir()]
        if left:
            raise Failure(f"uninstall leaves {left}")

    def program(self, folder, name, *flags, source="example/jevdec.c"):
        path = f"{folder}/{name}"
        words = ["cc", "-g", "-O1", *flags, f"-I{CAPI}/include", CAPI / source, OUT / "libjevmutzal.a", "-o", path]
        succeed(words)
        return path

    def sanitized(self, folder):
        flags = ["-fsanitize=address,undefined", "-fno-sanitize-recover=all"]
        probe = pathlib.Path(folder) / "probe.c"
        probe.write_text("int main(void) { return 0; }\n")
        if run(["cc", *flags, probe, "-o", f"{folder}/probe"]).returncode or run([f"{folder}/probe"]).returncode:
            raise Missing("cc has no sanitizers that run here")
        misuse = self.program(folder, "misuse_checked", *flags, source="tests/misuse.c")
        for row in self.misused():
            succeed([misuse, row.path], env=SANITIZERS)
        checked = self.program(folder, "jevdec_checked", *flags)
        return self.streams(lambda piece, path: [checked, "-p", piece, path], env=SANITIZERS)

    def misused(self):
        return [row for row in self.rows if row.stream in ("chroma_422", "fields", "sizes")]

    def misuse(self, folder):
        path = self.program(folder, "misuse", "-Wall", "-Wextra", "-Werror", source="tests/misuse.c")
        for row in self.misused():
            succeed([path, row.path])

    def no_memory(self, folder):
        """Each allocation refused in turn."""
        wrapped = ",".join(f"--wrap={name}" for name in ("malloc", "realloc", "free"))
        path = self.program(folder, "no_memory", f"-Wl,{wrapped}", source="tests/no_memory.c")
        rows = [row for row in self.share() if row.status == 0]
        return f"{sum(int(succeed([path, row.path])) for row in rows)} allocations"

    def damaged(self, folder):
        """Streams with bytes changed, left out or put in: the same comes out in all pieces, and no checker speaks."""
        path = self.program(folder, "jevdec_damaged", "-fsanitize=address,undefined", "-fno-sanitize-recover=all")
        streams = []
        for number, row in enumerate(self.share() * DAMAGED):
            streams.append(pathlib.Path(folder) / f"damaged_{number}.drc")
            streams[-1].write_bytes(damage(row.path.read_bytes(), random.Random(number)))
        answer = lambda stream, piece: run([path, "-p", piece, stream], env=SANITIZERS)
        with concurrent.futures.ThreadPoolExecutor(os.cpu_count()) as pool:
            found = list(pool.map(lambda stream: [answer(stream, piece) for piece in PIECES], streams))
        for stream, runs in zip(streams, found):
            told = {(done.returncode, done.stdout, done.stderr) for done in runs}
            if len(told) > 1 or runs[0].returncode not in (0, 4):
                raise Failure(f"{stream.name}: {[done.returncode for done in runs]}: {runs[0].stderr[-500:]!r}")
        return f"{len(streams)} streams, {len(PIECES) * len(streams)} runs"

    def valgrind(self, folder):
        need("valgrind")
        misuse = self.program(folder, "misuse", source="tests/misuse.c")
        for row in self.misused():
            succeed([*VALGRIND, misuse, row.path])
        command = lambda piece, path: [*VALGRIND, OUT / "jevdec", "-p", piece, path]
        return self.streams(command, self.share(), PIECES[1:2])

    def y4m(self):
        """The y4m of a stream: its first line, and behind each FRAME the picture."""
        row = next(it for it in self.rows if it.stream == "chroma_422")
        text = run([OUT / "jevdec", "-y", row.path]).stdout
        line, _, rest = text.partition(b"\n")
        if not re.fullmatch(rb"YUV4MPEG2 W\d+ H\d+ F\d+:\d+ Ip A\d+:\d+ C422( XCOLORRANGE=(FULL|LIMITED))?", line):
            raise Failure(f"the first line is {line!r}")
        length, left = divmod(len(rest), row.pictures)
        frames = [rest[at : at + length] for at in range(0, len(rest), length)]
        if left or not all(it.startswith(b"FRAME\n") for it in frames):
            raise Failure("there is no FRAME where a picture begins")
        if hashlib.md5(b"".join(it[len(b"FRAME\n") :] for it in frames)).hexdigest() != row.md5:
            raise Failure("the pictures are others")

    def python(self, folder):
        """The package as pip installs it, over the streams in one process a piece's size."""
        target = f"{folder}/venv"
        succeed([sys.executable, "-m", "venv", "--system-site-packages", target])
        python = f"{target}/bin/python"
        succeed([python, "-m", "pip", "install", "-q", "--no-index", CAPI / "python"])
        script = CAPI / "tests" / "run_streams.py"
        wrong = [line for piece in PIECES for line in succeed([python, script, piece], cwd=folder).splitlines()]
        if wrong:
            raise Failure("\n  ".join(wrong[:10]))
        return f"{len(PIECES) * len(self.rows)} runs"

    def numpy(self):
        environment = {"JEVMUTZAL_LIBRARY": str(OUT / "libjevmutzal.so"), "PYTHONPATH": str(CAPI / "python" / "src")}
        for python in (sys.executable, "/usr/bin/python3"):
            if run([python, "-c", "import numpy"]).returncode == 0:
                words = [python, CAPI / "tests" / "run_streams.py", PIECES[-1], "--arrays"]
                return succeed(words, env=environment).strip()
        raise Missing("there is no numpy")

    def gstreamer(self, folder):
        script = CAPI / "gstreamer" / "check.py"
        if not script.exists():
            raise Missing("there is no element")
        need("pkg-config", "gst-launch-1.0", "gst-inspect-1.0")
        if run(["pkg-config", "--exists", "gstreamer-video-1.0"]).returncode:
            raise Missing("there is no gstreamer-video-1.0 (libgstreamer-plugins-base1.0-dev)")
        self.make("gstreamer")
        done = run([sys.executable, script, *["--all"] * self.all], env={"XDG_CACHE_HOME": folder})
        if done.returncode:
            raise Failure((done.stdout + done.stderr).decode()[-2000:])
        return done.stdout.decode().strip()

    def build(self):
        """The library, or None where it can't be made here."""
        try:
            need("cc", "make", "ar", "nm")
            if not (self.archive and self.kit):
                need("rt")
        except Missing as missing:
            return missing
        if self.archive:
            # what is there may be of another archive
            self.make("clean")
        # the proof of a new clone takes longer than a run of this script's own may
        named = [f"{name}={os.path.abspath(it)}" for name, it in (("ARCHIVE", self.archive), ("KIT", self.kit)) if it]
        status = status_within(["make", "-C", CAPI, *named], self.within)
        if status is None:
            return Missing(f"it isn't built within {self.within / 60:g} minutes")
        if status:
            print(f"FAILED: make: it ended with {status}")
            sys.exit(1)
        return None

    def run(self):
        self.part("unit tests", self.unit_tests)
        missing = self.build()
        if missing:
            print(f"{'not run' if self.may_skip else 'FAILED'}: the library: {missing}")
            self.failed += not self.may_skip
            self.not_run.append("the library and all that stands on it")
            self.end(SKIPPED)
        jevdec = lambda piece, path: [OUT / "jevdec", "-p", piece, path]
        with tempfile.TemporaryDirectory(prefix="capi-") as folder:
            within = lambda body: functools.partial(body, folder)
            self.part("header", self.header)
            self.part("exported names", self.exported)
            self.part("streams", lambda: self.streams(jevdec))
            self.part("y4m", self.y4m)
            self.part("misuse", within(self.misuse))
            self.part("install", within(self.installed))
            self.part("sanitizers", within(self.sanitized))
            self.part("damaged streams", within(self.damaged))
            self.part("no memory", within(self.no_memory))
            self.part("valgrind", within(self.valgrind))
            self.part("python", within(self.python))
            self.part("numpy", self.numpy)
            self.part("gstreamer", within(self.gstreamer))
        self.end(0)

    def end(self, status):
        not_run = f", {len(self.not_run)} not run ({', '.join(self.not_run)})" if self.not_run else ""
        print(f"capi: {self.passed} passed, {self.failed} failed{not_run}")
        sys.exit(1 if self.failed else status)


OPTIONS = ("--may-skip", "--within", "--all", "--archive", "--kit", "--only")

if __name__ == "__main__":
    Check(sys.argv[1:]).run()
