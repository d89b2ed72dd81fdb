"""Crates of a clone proved in a folder of their own, by the steps of the gate, with a line each half minute."""
import contextlib
import ctypes
import fcntl
import hashlib
import os
import pathlib
import queue
import shutil
import signal
import subprocess
import sys
import threading
import time

import crate_list
import process_table
import prove_kept
import time_left

# What is said where a plain rt ci proves the crates, by the status of prove_kept.py.
BY_RT_CI = {
    prove_kept.NO_STEPS: "this rt has no steps that can be kept, so a plain rt ci proves all from nothing",
    prove_kept.KEEPS_ITSELF: "rt ci proves them, and keeps each that is proved",
}
# Seconds between two lines, at most, and between two looks at what is in hand.
PERIOD, LOOKS = 25, 5
LEFT_OUT = shutil.ignore_patterns("out", "must-fail", "more-edits")
SET_DEATH_SIGNAL = 1
KEEPING = pathlib.Path(__file__).resolve().with_name("prove_kept.py")


def clock(seconds):
    return f"{int(seconds) // 60}:{int(seconds) % 60:02}"


def plural(number, one):
    return f"{number} {one}{'' if number == 1 else 's'}"


def cache_folder(top, what):
    """Where a program of the clone at this path is built, or other work on its crates is done."""
    kept = os.environ.get("XDG_CACHE_HOME", "")
    cache = pathlib.Path(kept) if os.path.isabs(kept) else pathlib.Path.home() / ".cache"
    return cache / "jevmutzal" / f"{what}-{hashlib.sha256(str(top).encode()).hexdigest()[:8]}"


def copy_sources(top, folder, names):
    """Makes the folder hold these crates as they stand now, and what was proved of them earlier."""
    folder.mkdir(parents=True, exist_ok=True)
    (folder / "crates").mkdir(exist_ok=True)
    lines = [crate_list.line_of(top, name) for name in crate_list.read_crates(top) if name in names]
    (folder / "crates.txt").write_text("".join(f"{line}\n" for line in lines), encoding="utf-8")
    if (top / "HANDLES").is_file():
        shutil.copy(top / "HANDLES", folder)
    for crate in (folder / "crates").iterdir():
        for part in crate.iterdir() if crate.name in names else []:
            if part.name != "out":
                shutil.rmtree(part) if part.is_dir() else part.unlink()
        if crate.name not in names:
            shutil.rmtree(crate)
    for name in names:
        shutil.copytree(top / "crates" / name, folder / "crates" / name, ignore=LEFT_OUT, dirs_exist_ok=True)


def die_with_parent():
    """Has the system end the process that calls this when the one that started it ends, however that ends."""
    ctypes.CDLL(None).prctl(SET_DEATH_SIGNAL, signal.SIGKILL)


class Proving:
    """What proves these crates and all that they stand on, in a folder for this work on them."""

    def __init__(self, top, names, what, log):
        crates = crate_list.read_crates(top)
        self.top, self.log, self.who = top, log, "run"
        self.names = [one for one in crates if any(one in [*crate_list.below(crates, name), name] for name in names)]
        self.waits = {name: crate_list.below(crates, name) for name in self.names}
        self.folder = cache_folder(top, what)
        self.begin, self.told = time.monotonic(), 0.0
        self.costs, self.proved, self.took, self.command = {}, [], [], None
        self.begun, self.failures, self.kept = {}, [], 0
        # the most crates that were in hand at once, and whether others could have been then
        self.places, self.is_full = 1, False

    def tell(self, text):
        self.told = time.monotonic()
        print(f"{self.who}: {text} ({clock(self.told - self.begin)})", file=sys.stderr, flush=True)

    def in_hand(self):
        """The steps in hand and for how many seconds, the longest first; when each crate was begun is kept."""
        now = time.monotonic()
        steps = [(step, process.age) for step, process in process_table.steps_below(self.command.pid)]
        for step, age in steps:
            if step.step == "proof":
                self.begun[step.crate] = min(now - age, self.begun.get(step.crate, now))
        crates = {step.crate for step, _ in steps if step.step not in ("edits", "layout")}
        self.places = max(self.places, len({(step.crate, step.step == "edits") for step, _ in steps}))
        self.is_full = self.is_full or bool(crates) and len(crates) < len(self.ready())
        return steps

    def costs_left(self):
        """What isn't done, with what it costs by its lines."""
        return {name: self.costs[name] for name in self.names if name not in self.proved}

    def ready(self):
        """The crates that aren't proved and wait for no other."""
        left = self.costs_left()
        return [name for name in self.names if name in left and not any(below in left for below in self.waits[name])]

    def done(self):
        return f"{len(self.proved)} of {plural(len(self.names), 'crate')} proved"

    def earlier(self):
        """How many of these an earlier run proved, in words."""
        return f", {self.kept} of them earlier" if self.kept else ""

    def guess(self, steps):
        """How long it takes on from here, in words."""
        begun = {}
        for step, age in steps:
            task = f"{step.crate} {step.step}" if step.step == "edits" else step.crate
            begun[task] = max(age, begun.get(task, 0))
        costs, pace = self.costs_left(), time_left.pace(self.took)
        # what takes longer than by the pace of the others says of the pace, too
        long = [(costs[task], age) for task, age in begun.items() if task in costs and age > pace * costs[task]]
        pace = time_left.pace(self.took + long)
        left = {task: pace * cost for task, cost in costs.items()}
        places = self.places if self.is_full else max(self.places, len(os.sched_getaffinity(0)))
        return time_left.in_words(time_left.seconds_left(left, self.waits, begun, places))

    def tell_progress(self):
        steps = self.in_hand()
        hand = ", ".join(f"{step.crate} ({step.step}) {clock(age)}" for step, age in steps)
        left = f"; left by a guess: {self.guess(steps)}" if self.costs_left() else ""
        self.tell(f"{self.done()}{self.earlier()}; in hand: {hand or 'what rt reads and runs itself'}{left}")

    def take(self, line, block):
        """Takes a line that the command wrote; block holds the lines since the one that names a crate."""
        name, _, end = line[4:].strip().partition(" ") if line.startswith("rt: ") else ("", "", "")
        if line.startswith("kept: ") or end.startswith("is kept: ") and name in self.names:
            self.proved.append(name or line[6:].strip())
            self.kept += 1
        if line.startswith("== "):
            block.clear()
        block.append(line)
        if end == "proved" and name in self.names:
            seconds = [int(one.split()[1]) for one in block if one.startswith("took ")]
            if not seconds and name in self.begun:
                # rt ci says no times
                seconds = [time.monotonic() - self.begun[name]]
            self.took += [(self.costs[name], one) for one in seconds]
            self.proved.append(name)
            self.tell(f"{self.done()}: {name}")
        if end.startswith("NOT PROVED"):
            self.failures += block[-20:]

    def read_lines(self, lines):
        for line in self.command.stdout:
            lines.put(line)
        lines.put(None)

    def run(self, words, mode):
        """The status of a command that proves the crates, whose lines go into the log."""
        lines, block = queue.Queue(), []
        with open(self.log, mode, encoding="utf-8") as log:
            # in a session of its own, so that Ctrl-C comes to this process alone, which then ends the command
            how = {"stdin": subprocess.DEVNULL, "stdout": subprocess.PIPE, "stderr": subprocess.STDOUT}
            self.command = subprocess.Popen(words, cwd=self.folder, text=True, errors="replace", start_new_session=True,
                                            preexec_fn=die_with_parent, **how)
            threading.Thread(target=self.read_lines, args=(lines,), daemon=True).start()
            while True:
                left = self.told + PERIOD - time.monotonic()
                try:
                    line = lines.get(timeout=max(0.1, min(left, LOOKS)))
                except queue.Empty:
                    if left <= LOOKS:
                        self.tell_progress()
                    else:
                        self.in_hand()
                    continue
                if line is None:
                    self.command.stdout.close()
                    return self.command.wait()
                log.write(line)
                log.flush()
                self.take(line, block)

    def prepare(self):
        """Makes the folder, with the crates as they stand now; how many of them were proved before."""
        copy_sources(self.top, self.folder, self.names)
        self.costs = {name: time_left.cost_of(self.folder / "crates" / name) for name in self.names}
        return len(prove_kept.kept_crates(self.folder))

    def prove(self, edited=()):
        """Proves all crates in the folder, builds what is a program, and tries the edits of some; the status."""
        status = self.run([sys.executable, str(KEEPING), str(self.folder), *edited], "w")
        if status in BY_RT_CI:
            self.tell(BY_RT_CI[status])
            status = self.run(["rt", "ci"], "a")
        return status

    def remove_folder(self):
        shutil.rmtree(self.folder)
        with contextlib.suppress(OSError):
            self.folder.parent.rmdir()

    def end(self, number, _):
        """Ends what runs below, at a signal. What was proved is kept."""
        if self.command:
            self.command.kill()
        # the terminal may be gone
        with contextlib.suppress(OSError):
            self.tell(f"broken off with {self.done()}; begun again it goes on")
        os._exit(128 + number)

    def tail(self):
        return self.log.read_text(errors="replace").splitlines(keepends=True)[-20:]

    @contextlib.contextmanager
    def alone(self):
        """Waits until no other call proves in this clone, and says how to go on where a signal ends this one."""
        with open(self.top / "crates.txt", "rb") as file:
            while True:
                try:
                    fcntl.flock(file, fcntl.LOCK_EX | fcntl.LOCK_NB)
                    break
                except BlockingIOError:
                    if time.monotonic() > self.told + PERIOD or not self.told:
                        self.tell("another call is at work on this clone; this one waits for it")
                    time.sleep(1)
            for number in (signal.SIGINT, signal.SIGTERM, signal.SIGHUP):
                signal.signal(number, self.end)
            yield
