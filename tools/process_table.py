"""The processes below one, each with the crate and the step of `rt` that its words name. For Linux, by /proc."""
import collections
import os
import pathlib

PROC = pathlib.Path("/proc")
TICKS = os.sysconf("SC_CLK_TCK")

# parent: the number of the process above it; words: its command line; folder: where it runs; seconds: its processor
# time with that of the children that it waited for; began: when, in ticks since the system did; age: seconds since it
# began; held, peak: the memory that it holds now and held at most, in bytes
Process = collections.namedtuple("Process", "number parent words folder seconds began age held peak")

# step: what is done for the crate, in words that stand behind "in hand:"
Step = collections.namedtuple("Step", "crate step")


def text_of(path):
    try:
        return path.read_text(errors="replace")
    except OSError:
        return ""


def folder_of(path):
    try:
        return os.readlink(path / "cwd")
    except OSError:
        return ""


def process_at(path, now):
    """The process of a folder of /proc, or None where it has ended."""
    words = text_of(path / "cmdline").split("\0")[:-1]
    # the name of the program stands in brackets, and may hold anything
    fields = text_of(path / "stat").rpartition(")")[2].split()
    if len(fields) < 20:
        return None
    seconds = sum(int(fields[at]) for at in range(11, 15)) / TICKS
    status = dict(line.split(":", 1) for line in text_of(path / "status").splitlines() if ":" in line)
    held, peak = (1024 * int(status.get(name, "0").split()[0]) for name in ("VmRSS", "VmHWM"))
    began = int(fields[19])
    age = now - began / TICKS
    return Process(int(path.name), int(fields[1]), words, folder_of(path), seconds, began, age, held, peak)


def processes_below(number):
    """All processes that descend from this one, it left out."""
    now = float((text_of(PROC / "uptime").split() or ["0"])[0])
    found = {}
    for path in PROC.iterdir():
        if path.name.isdigit():
            process = process_at(path, now)
            if process:
                found[process.number] = process
    inside, grew = {number}, True
    while grew:
        more = {one.number for one in found.values() if one.parent in inside} - inside
        inside, grew = inside | more, bool(more)
    return [one for one in found.values() if one.number in inside and one.number != number]


def word_behind(words, flag):
    at = words.index(flag) + 1 if flag in words else len(words)
    return words[at] if at < len(words) else ""


def step_of(process):
    """The crate and step that the words of a process name, or None. The words are those of `rt ci`."""
    words = process.words
    program = os.path.basename(words[0]) if words else ""
    if program == "rattle" and "--crate-name" in words:
        name = word_behind(words, "--crate-name")
        if "--crate-checked" in words:
            by = "Rattle's own compiler" if word_behind(words, "--backend") == "rattle" else "LLVM"
            return Step(name, f"compiling by {by}")
        if words[1] == "check" and "-o" not in words:
            return Step(name, "edits")
        return Step(name, "tests" if "--test" in words else "proof")
    if program == "rattle-link":
        return Step(os.path.basename(process.folder), "linking")
    if program == "rattle" and words[1:2] == ["fmt"]:
        return Step(os.path.basename(process.folder), "layout")
    run = [word for word in words if "/rt-run-" in word and "/bin/" in word]
    if run:
        name, tests = os.path.basename(run[-1]).partition(".")[0], "_tests"
        return Step(name[: -len(tests)], "running tests") if name.endswith(tests) else Step(name, "running")
    return None


def steps_among(processes):
    """The steps of these processes, the oldest first: each with its process, and with that and all that it started."""
    known = {one.number: step_of(one) for one in processes}
    tops = [one for one in processes if known[one.number] and known.get(one.parent) != known[one.number]]
    found, heads = [], {one.number for one in tops}
    for top in sorted(tops, key=lambda one: -one.age):
        inside, grew = {top.number}, True
        while grew:
            more = {one.number for one in processes if one.parent in inside} - inside - heads
            inside, grew = inside | more, bool(more)
        found.append((known[top.number], top, [one for one in processes if one.number in inside]))
    return found


def steps_below(number):
    """The steps in hand below this process, the oldest first, each with its process."""
    return [(step, process) for step, process, _ in steps_among(processes_below(number))]
