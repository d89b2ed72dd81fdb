"""What the tests share: where things are, runs of programs, and small streams made by scripts."""
import atexit
import contextlib
import functools
import io
import os
import pathlib
import random
import shutil
import subprocess
import sys
import tempfile
import unittest
import warnings
from unittest import mock

TOP = pathlib.Path(__file__).resolve().parent.parent
for folder in ("tools", "conformance", "examples", "bench/reference"):
    if str(TOP / folder) not in sys.path:
        sys.path.append(str(TOP / folder))

from front import program
from front.main import main
from front.plain import decoder, encoder

PLAIN_TOOL = TOP / "tests" / "plain_tool.py"
LONGEST_RUN = 120
# the proved program, where it is named or built; all but a few tests run the plain one in its place
PROVED = os.environ.get("DIRAC_TOOL", str(program.PLACE))
_FOLDER = tempfile.TemporaryDirectory()
atexit.register(_FOLDER.cleanup)
_LAUNCHER = pathlib.Path(_FOLDER.name) / "dirac_tool"
_LAUNCHER.write_text(f"#!/bin/sh\nexec '{sys.executable}' '{PLAIN_TOOL}' \"$@\"\n")
_LAUNCHER.chmod(0o755)
os.environ["DIRAC_TOOL"] = str(_LAUNCHER)
QUICK = {"depth": 2, "precision": 0, "range": 0, "pyramid": 0, "bias": 0}


def has(command):
    return shutil.which(command) is not None


class Done:
    """What a run left: its status, its bytes, and its lines on standard error."""

    def __init__(self, status, out, err):
        self.status, self.out, self.err = status, out, err


def run(words, data=b"", folder=None, **environment):
    """Runs a command of words in a process of its own."""
    environment = {**os.environ, **environment}
    words = [str(word) for word in words]
    done = subprocess.run(words, input=data, capture_output=True, cwd=folder, env=environment, timeout=LONGEST_RUN)
    return Done(done.returncode, done.stdout, done.stderr.decode())


def run_here(words, folder, **environment):
    """Runs the front program in this process, where neither standard input nor bytes on standard output are asked."""
    out, err, before = io.StringIO(), io.StringIO(), os.getcwd()
    os.chdir(folder)
    # what a process leaves open is closed with it; here that would be told among the lines of the run
    warnings.simplefilter("ignore", ResourceWarning)
    try:
        with mock.patch.dict(os.environ, environment), contextlib.redirect_stdout(out), contextlib.redirect_stderr(err):
            try:
                status = main([str(word) for word in words])
            except SystemExit as end:
                status = end.code
    finally:
        os.chdir(before)
    return Done(status, out.getvalue().encode(), err.getvalue())


def dirac(*words, data=b"", folder=None, **environment):
    return run([sys.executable, TOP / "dirac", *words], data, folder, **environment)


def script(path, *words, data=b"", folder=None):
    return run([sys.executable, TOP / path, *words], data, folder)


def conformance(name):
    return (TOP / "conformance" / "streams" / f"{name}.drc").read_bytes()


def raw_pictures(count, width=16, height=16, chroma=2, seed=1):
    """A slope that moves, with noise in its lowest bits."""
    source = random.Random(seed)
    sizes = decoder.plane_sizes(decoder.Sequence(width, height, chroma))
    out = bytearray()
    for number in range(count):
        for plane, (columns, rows) in enumerate(sizes):
            for y in range(rows):
                out += bytes(
                    (5 * (x + number) + 3 * y + 40 * plane + source.randrange(4)) % 256 for x in range(columns)
                )
    return bytes(out)


@functools.lru_cache(maxsize=None)
def encoded(count, raw=None, **values):
    """The stream that the plain encoder makes of so many pictures of 16 by 16."""
    settings = encoder.default_settings(0) | QUICK | {"width": 16, "height": 16} | values
    height = settings["height"] // (2 if settings["fields"] else 1)
    raw = raw_pictures(count, settings["width"], height, settings["chroma"]) if raw is None else raw
    done = encoder.encode(settings, raw)
    assert done.status == 0
    return done.stream


def shown(stream):
    """The pictures of a stream without a fault."""
    decoded = decoder.decode(stream)
    assert decoded.fault is None, decoded.fault
    return decoded.pictures


def units_of(stream):
    return list(decoder.read_units(stream))


def stream_of(units):
    """A stream of pairs of code and payload."""
    writer = encoder.StreamWriter()
    for code, payload in units:
        writer.add(code, payload, 0 if code == decoder.END_OF_SEQUENCE else None)
    return writer.stream


def shown_by_ffmpeg(stream, chroma=2):
    """What ffmpeg's plain code shows, and what it says."""
    formats = ["yuv444p", "yuv422p", "yuv420p"]
    words = ["ffmpeg", "-cpuflags", "0", "-v", "error", "-f", "dirac", "-i", "-", "-fps_mode", "passthrough"]
    done = run([*words, "-f", "rawvideo", "-pix_fmt", formats[chroma], "-"], stream)
    return done.out, done.err


class InFolder(unittest.TestCase):
    """A test with a folder of its own, in which files are named by their names alone."""

    def setUp(self):
        folder = tempfile.TemporaryDirectory()
        self.addCleanup(folder.cleanup)
        self.folder = pathlib.Path(folder.name)

    def write(self, name, data):
        (self.folder / name).write_bytes(data)
        return name

    def read(self, name):
        return (self.folder / name).read_bytes()

    def dirac(self, *words, data=None, **environment):
        if data is None and "-" not in words:
            return run_here(words, self.folder, **environment)
        return dirac(*words, data=data or b"", folder=self.folder, **environment)

    def names(self):
        return sorted(path.name for path in self.folder.iterdir())
