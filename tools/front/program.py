"""The proved program: where it is, and its answers in a reader's words."""
import os
import re
import shutil
import sys

from .plain import TOP
from .processes import Pipe
from .refusal import Refusal

PLACE = TOP / "crates" / "dirac_tool" / "out" / "dirac_tool"
PLAIN = TOP / "bench" / "reference" / "decode.py"
VARIABLE = "DIRAC_TOOL"
FAULT = 4
MOST_WORKERS = 64
# Of the C library's memory: large pages, tables below 32 MB from its own store, and what is freed stays at hand; the
# workers of pardecode have one store. The same bytes in less time. `run` sets the same.
TUNABLES = "glibc.malloc.hugetlb=1:glibc.malloc.mmap_threshold=33554432:glibc.malloc.trim_threshold=1073741824"
ONE_STORE = ":glibc.malloc.arena_max=1"

NOT_OF_PROFILE = "LowDelay Vlc Version Preset ChromaFormat Sampling RateIndex AspectIndex SignalRange Depth8 Fields"
NOT_OF_PROFILE += " GlobalMotion PredictionMode BlockPreset"
FAULTS = {
    "MissingEnd": "the end unit is missing, behind all pictures; `dirac repair` writes one",
    "Truncated": "the file ends within a unit; what stands before it was taken",
    "BadPrefix": "no unit begins there: damage, or no Dirac stream at all; `dirac repair` looks for the next one",
    "NoSequence": "a picture without a sequence header before it; `dirac repair` puts one in front",
    "MissingReference": "a picture refers to one that isn't there; `dirac repair` leaves it out",
    "OffsetMissing": "a unit doesn't say where the next one is; `dirac repair` fills that in",
    "SequenceChanged": "another header without an end unit before it; `dirac repair` puts one there",
    "Size": "a size above 4096 by 2304, or one that the chroma format doesn't divide, as 853 by 480 in 4:2:0, isn't of"
    " the profile that this codec reads",
    "UnknownCode": "a unit of a kind that no decoder of this profile takes (VC-2 high quality, E8, is one)",
}
ANSWERS = [
    (r"bad setting (\S+)", "{0} is out of its range or doesn't go with the size; docs/ENCODER.md has the ranges"),
    (r"usage: word (\d+)", "the program doesn't take word {0} of its words"),
    (r"partial picture: (\d+) bytes", "{0} bytes are left over whole pictures: is the size right?"),
    (r"unit too long: picture (\d+)", "picture {0} is longer than --unit-bytes; the stream ends before it"),
    (r"no such point: (\d+)", "there is no point {0} with pictures behind it; `dirac info` lists the points"),
    (r"open cut: unit (\d+)", "unit {0} refers to a picture outside of the part; take another point"),
    (r"no memory", "not enough memory"),
    (r"read fault", "the input can't be read"),
    (r"write fault", "the output can't be written: is the disk full?"),
    (r"side fault", "what stands beside the output can't be written: is the disk full?"),
]


def place():
    """The path of the program, built."""
    named = os.environ.get(VARIABLE)
    path = shutil.which(named or str(PLACE))
    if path is None:
        if named:
            raise Refusal(f"{VARIABLE}={named} names no program that can be run")
        raise Refusal(
            "the proved program isn't built yet: `./run list < examples/moving.drc` builds it, in 40 minutes or so, or"
            f" the variable {VARIABLE} names it; with --plain decode and play do without it, slowly"
        )
    return path


def memory_for(words):
    """What the environment says of the program's memory, where these are its words."""
    return {"GLIBC_TUNABLES": TUNABLES + (ONE_STORE if words[:1] == ["pardecode"] else "")}


def start(words, fed, passed=()):
    return Pipe([place(), *words], fed, passed, {**memory_for(words), **os.environ})


def workers():
    """As many workers as there are processors for this process, of those that the program takes."""
    own = len(os.sched_getaffinity(0)) if hasattr(os, "sched_getaffinity") else os.cpu_count() or 1
    return min(MOST_WORKERS, own)


def start_decoder(fed, is_plain):
    """The proved decoder, by workers where there are processors for them; or the plain one of bench/reference.

    All three answer the same. The plain one needs no build.
    """
    if is_plain:
        return Pipe([sys.executable, str(PLAIN)], fed)
    count = workers()
    return start(["decode"] if count == 1 else ["pardecode", f"--workers={count}"], fed)


def explained(line):
    """A line of the program's, as a sentence that says what to do."""
    fault = re.search(r"fault unit=(\d+) at=(\d+) cause=(\w+)", line)
    if fault:
        unit, at, cause = fault.groups()
        meaning = "a field of the unit isn't what it can be; `dirac repair --decode` leaves the unit out"
        if cause in NOT_OF_PROFILE.split():
            meaning = "the stream isn't of the profile that this codec reads; docs/PLAYERS.md has it under Old files"
        meaning = FAULTS.get(cause, meaning)
        return f"fault in unit {unit} at byte {at}: {cause} ({meaning})"
    for pattern, text in ANSWERS:
        found = re.search(pattern, line)
        if found:
            return text.format(*found.groups())
    return line or "the program ended without a word"


def refusal(name, status, text):
    """The program's answer, for a run on what has this name; None where it is done."""
    if status == 0:
        return None
    lines = [line for line in text.splitlines() if not line.startswith("pictures=")]
    known = 0 < status < 20
    what = explained(lines[-1] if lines else "") if known else f"the program was ended by the system (status {status})"
    return Refusal(f"{name}: {what}", status if known else 1)
