"""Tests of measure_gate.py, with a gate that only pretends."""
import os
import pathlib
import subprocess
import sys
import tempfile
import textwrap
import unittest

from small_repository import TOOLS

import measure_gate
from process_table import Process

GATE = textwrap.dedent('''
    import os, subprocess, sys
    spin = "import sys, time\\nwhile time.process_time() < float(sys.argv[1]): pass"
    rattle = os.path.join(os.path.dirname(sys.argv[0]), "rattle")
    os.path.exists(rattle) or os.symlink(sys.executable, rattle)
    print("== low")
    subprocess.run([rattle, "-c", spin, "1.6", "--crate-name", "low", "-o", "x"])
    print("rt: low proved", flush=True)
    subprocess.run([rattle, "-c", spin, "0.1", "--crate-name", "low", "--test", "-o", "x"])
    print("rt: must-fail low/one.edit: refused, as it must be")
    sys.stdout.buffer.write(b"a line that is no text: \\xff\\n1 passed, 0 failed")
    sys.exit(3)
''')


class Measures(unittest.TestCase):
    def test_passes_all_on_and_writes_the_table(self):
        with tempfile.TemporaryDirectory() as room:
            gate, table = pathlib.Path(room) / "gate.py", pathlib.Path(room) / "table.md"
            gate.write_text(GATE)
            words = [sys.executable, str(gate)]
            plain = subprocess.run(words, capture_output=True)
            self.assertEqual(plain.returncode, 3)
            measured = [sys.executable, str(TOOLS / "measure_gate.py"), str(table), *words]
            done = subprocess.run(measured, capture_output=True)
            self.assertEqual((done.returncode, done.stdout), (plain.returncode, plain.stdout))
            cells = [cell.strip() for cell in table.read_text().splitlines()[2].split("|")]
        self.assertEqual(cells[1], "`low`")
        self.assertIn(int(cells[2]), (1, 2), "seconds of its proof")
        self.assertEqual(cells[6], "1", "edits")
        self.assertRegex(cells[8], r"^0:\d\d$")

    def test_a_command_that_a_signal_ends(self):
        with tempfile.TemporaryDirectory() as room:
            words = ["sh", "-c", "kill -TERM $$"]
            done = subprocess.run([sys.executable, str(TOOLS / "measure_gate.py"), f"{room}/table.md", *words])
            self.assertEqual(done.returncode, 128 + 15)


class Looks(unittest.TestCase):
    def test_counts_what_a_step_starts_once(self):
        proof = "/kit/bin/rattle build --crate-name low --statements -o out/rlib/low.rlib".split()
        measure = measure_gate.Measure()
        # a copy of the step's process is at work; later it has ended, and the step has waited for it
        measure.look([Process(7, 1, proof, "", 10, 1000, 20, 100, 150), Process(8, 7, proof, "", 5, 2500, 5, 40, 40),
                      Process(9, 8, ["clang"], "", 1, 2900, 1, 30, 30)])
        measure.look([Process(7, 1, proof, "", 17, 1000, 21.6, 60, 150)])
        self.assertEqual(measure.seconds_of("low", "Proof"), 17)
        self.assertEqual(measure.peak_of("low"), 170)
        self.assertEqual(measure.held_at_once, 170)

    def test_keeps_crates_and_steps_apart(self):
        words = "/kit/bin/rattle check --crate-name {} src/lib.rt".format
        measure = measure_gate.Measure()
        measure.look([Process(7, 1, words("low").split(), "", 3, 100, 4, 0, 0),
                      Process(8, 1, words("high").split(), "", 5, 100, 6, 0, 0),
                      Process(9, 1, [*words("low").split(), "-o", "x"], "", 7, 100, 8, 0, 0)])
        # the number comes again for another process
        measure.look([Process(7, 1, words("low").split(), "", 1, 900, 1, 0, 0)])
        self.assertEqual(measure.seconds_of("low", "Edits"), 4)
        self.assertEqual(measure.seconds_of("high", "Edits"), 5)
        self.assertEqual(measure.seconds_of("low", "Proof"), 7)
        lines = measure.table(60, 30).splitlines()
        self.assertTrue(lines[2].startswith("| `low` | 7 | | 4 | |"), lines[2])
        self.assertIn("By the clock: 1.0 minutes", lines[-1])


if __name__ == "__main__":
    unittest.main()
