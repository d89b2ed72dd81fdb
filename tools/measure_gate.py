#!/usr/bin/env python3
"""Runs the gate, or another command of rt, and writes what each crate took.

measure_gate.py TABLE [COMMAND...]      TABLE is the file that the table is written to, in the form of docs/GATE.md;
                                        the command is .ci/run where none is given

What the command writes comes out unchanged, and its status is the answer. The table has the processor seconds of each
crate for its proof, its tests, its edits, and building and running it; when the crate was proved, by the clock; and the
most memory that a check of it held. All is taken from the processes below the command, twice a second, so that of each
process up to the last half second is missed; how much that is over all stands behind the table.
"""
import collections
import os
import pathlib
import re
import resource
import signal
import subprocess
import sys
import threading
import time

import crate_list
import process_table

PERIOD = 0.5
COLUMNS = ("Proof", "Tests", "Edits", "Programs")
COLUMN_OF_STEP = {"proof": "Proof", "tests": "Tests", "edits": "Edits"}


def minutes(seconds):
    return f"{int(seconds) // 60}:{int(seconds) % 60:02}"


class Measure:
    """What was seen of the processes and of the lines of a command."""

    def __init__(self):
        # by the number of a step's process and when it began, as numbers come again
        self.steps = {}
        self.proved_at, self.edits = {}, collections.Counter()
        self.begin, self.held_at_once = time.monotonic(), 0

    def look(self, processes):
        """Takes in all processes below the command, as they are now."""
        self.held_at_once = max(self.held_at_once, sum(one.held for one in processes))
        for step, top, parts in process_table.steps_among(processes):
            key = top.number, top.began, step
            seconds, peak = sum(one.seconds for one in parts), sum(one.held for one in parts)
            before = self.steps.get(key, (0, 0))
            self.steps[key] = max(before[0], seconds), max(before[1], peak, top.peak)

    def take(self, line):
        """Takes in a line that the command wrote."""
        proved, edit = re.fullmatch(r"rt: (\w+) proved", line), re.match(r"rt: must-fail (\w+)/", line)
        if proved:
            self.proved_at[proved[1]] = time.monotonic() - self.begin
        if edit:
            self.edits[edit[1]] += 1

    def seconds_of(self, crate, column):
        return sum(seconds for (_, _, step), (seconds, _) in self.steps.items()
                   if step.crate == crate and COLUMN_OF_STEP.get(step.step, "Programs") == column)

    def peak_of(self, crate):
        return max((peak for (_, _, step), (_, peak) in self.steps.items() if step.crate == crate), default=0)

    def table(self, clock, processor):
        """The table, the dearest crate first, and what all came to, of the clock and of the processor in seconds."""
        crates = {step.crate for _, _, step in self.steps} | {*self.proved_at}
        rows = {crate: [self.seconds_of(crate, column) for column in COLUMNS] for crate in crates}
        lines = [f"| Crate | {' | '.join(COLUMNS)} | Number of edits | Most memory | Proved at |", f"|{'---|' * 8}"]
        for crate in sorted(crates, key=lambda one: (-sum(rows[one]), one)):
            seconds = [f"{one:.0f}" if one else "" for one in rows[crate]]
            at = minutes(self.proved_at[crate]) if crate in self.proved_at else ""
            cells = [f"`{crate}`", *seconds, self.edits[crate] or "", f"{self.peak_of(crate) / 2**30:.1f} GiB", at]
            lines.append(f"| {' | '.join(map(str, cells))} |".replace("|  |", "| |").replace("|  |", "| |"))
        sums = [sum(row[at] for row in rows.values()) for at in range(len(COLUMNS))]
        said = ", ".join(f"{name.lower()} {one / 60:.1f}" for name, one in zip(COLUMNS, sums))
        unseen, held = (processor - sum(sums)) / 60, self.held_at_once / 2**30
        lines += ["", f"Minutes of one core: {processor / 60:.1f}, of which {said}, and {unseen:.1f} that no crate was "
                      f"seen with. By the clock: {clock / 60:.1f} minutes. Most memory at once: {held:.1f} GiB."]
        return "".join(f"{line}\n" for line in lines)


def look_until(measure, number, has_ended):
    while not has_ended.wait(PERIOD):
        measure.look(process_table.processes_below(number))


def pass_on(command, measure):
    """Passes on what the command writes as it comes, and reads its lines."""
    rest = b""
    while True:
        piece = os.read(command.stdout.fileno(), 1 << 16)
        if not piece:
            return
        sys.stdout.buffer.write(piece)
        sys.stdout.buffer.flush()
        *lines, rest = (rest + piece).split(b"\n")
        for line in lines:
            measure.take(line.decode(errors="replace"))


def main():
    if len(sys.argv) < 2 or sys.argv[1].startswith("-"):
        print(__doc__, file=sys.stderr)
        sys.exit(2)
    table, words = pathlib.Path(sys.argv[1]).resolve(), sys.argv[2:]
    if not words:
        words = [str(crate_list.TOP / ".ci" / "run")]
    # Ctrl-C reaches the command, too; what was seen until then is written
    signal.signal(signal.SIGINT, lambda *_: None)
    measure, has_ended = Measure(), threading.Event()
    with subprocess.Popen(words, stdout=subprocess.PIPE) as command:
        watcher = threading.Thread(target=look_until, args=(measure, command.pid, has_ended))
        watcher.start()
        try:
            pass_on(command, measure)
            status = command.wait()
        finally:
            has_ended.set()
            watcher.join()
    used = resource.getrusage(resource.RUSAGE_CHILDREN)
    table.write_text(measure.table(time.monotonic() - measure.begin, used.ru_utime + used.ru_stime))
    sys.exit(status if status >= 0 else 128 - status)


if __name__ == "__main__":
    main()
