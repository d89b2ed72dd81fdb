"""Tests of build.py and of what it stands on."""
import contextlib
import fcntl
import hashlib
import io
import os
import pathlib
import shutil
import signal
import subprocess
import sys
import tempfile
import time
import unittest
import unittest.mock

from small_repository import KEEPING, STEPS, TOOLS, WHOLE, Repository

import process_table
import prove_kept
import proving
import time_left


PLAIN_PATH = "/usr/bin:/bin"


class Builds(Repository):
    def start_build(self, **how):
        return self.start("build.py", "tool", "word", **how)

    def build(self, **how):
        """The status of build.py, and what it said."""
        _, said, status = self.call("build.py", "tool", "word", **how)
        return status, said


class BuildsProgram(Builds):
    def test_proves_only_what_the_program_stands_on(self):
        status, said = self.build()
        self.assertEqual(status, 0, said)
        self.assertEqual(self.proved(), ["low", "middle", "tool"])
        self.assertIn("3 of 3 crates proved: tool", said)
        self.assertIn("tool is built", said)
        self.assertTrue(os.access(self.top / "crates/tool/out/tool", os.X_OK))
        self.assertTrue((self.top / "crates/tool/out/tool.by-rattle").is_file())
        self.assertEqual(list(self.room.glob("cache/*")), [], "the folder is removed")

    def test_builds_nothing_where_nothing_changed(self):
        self.build()
        self.proved()
        later = time.time() + 5
        os.utime(self.top / "crates/tool/src/main.rt", (later - 10, later - 10))
        self.assertEqual(self.build(), (0, ""))
        self.assertEqual(self.proved(), [])

    def test_is_as_old_as_the_sources_that_it_read(self):
        before = time.time()
        self.build()
        made = (self.top / "crates/tool/out/tool").stat().st_mtime
        self.assertTrue(before <= made <= before + 2)

    def test_builds_again_after_a_change_below(self):
        self.build()
        self.proved()
        self.write("low", "src/lib.rt", "other code\n")
        self.assertEqual(self.build()[0], 0)
        self.assertEqual(self.proved(), ["low", "middle", "tool"])

    def test_a_change_of_edits_or_of_other_crates_builds_nothing(self):
        self.build()
        self.proved()
        self.write("low", "must-fail/two.edit", "edit\n")
        self.write("other", "src/lib.rt", "other code\n")
        self.assertEqual(self.build(), (0, ""))
        self.assertEqual(self.proved(), [])

    def test_copies_no_edits(self):
        self.write("middle", "src/lib.rt", "fails\n")
        self.build()
        copied = sorted(path.name for path in self.cache.glob("jevmutzal/*/crates/low/*"))
        self.assertEqual(copied, ["out", "src"])
        self.assertEqual(len(list(self.cache.glob("jevmutzal/*/crates/*"))), 3)

    def test_another_answer_of_the_other_compiler_is_refused(self):
        self.write("tool", "src/main.rt", "differs\n")
        status, said = self.build()
        self.assertEqual(status, 1)
        self.assertIn("isn't taken", said)
        self.assertFalse((self.top / "crates/tool/out/tool").exists())

    def test_takes_a_plain_gate_where_rt_has_no_steps(self):
        self.make_rt(WHOLE)
        status, said = self.build()
        self.assertEqual(status, 0, said)
        self.assertEqual(self.proved(), ["whole"])
        self.assertIn("a plain rt ci", said)
        self.assertTrue((self.top / "crates/tool/out/tool").is_file())

    def test_takes_the_gate_where_rt_keeps_what_it_proved(self):
        self.make_rt(KEEPING)
        status, said = self.build()
        self.assertEqual(status, 0, said)
        self.assertEqual(self.proved(), ["whole"])
        self.assertIn("keeps each that is proved", said)
        self.assertIn("3 of 3 crates proved: tool", said)

    def test_says_that_there_is_no_rt(self):
        status, said = self.build(path=str(self.room / "nowhere"))
        self.assertEqual(status, 1)
        self.assertIn("no command rt", said)


class GoesOn(Builds):
    def test_after_a_crate_that_was_not_proved(self):
        self.write("middle", "src/lib.rt", "fails\n")
        status, said = self.build()
        self.assertEqual(status, 1)
        self.assertIn("fn first: not proved", said)
        self.assertEqual(self.proved(), ["low", "middle"])
        self.write("middle", "src/lib.rt", "mended\n")
        status, said = self.build()
        self.assertEqual(status, 0, said)
        self.assertEqual(self.proved(), ["middle", "tool"])
        self.assertIn("proved before and kept: 1 (", said)

    def test_but_proves_again_what_stands_on_a_change(self):
        self.write("tool", "src/main.rt", "fails\n")
        self.build()
        self.assertEqual(self.proved(), ["low", "middle", "tool"])
        self.write("low", "src/lib.rt", "other code\n")
        self.assertNotIn("proved before", self.build()[1])
        self.assertEqual(self.proved(), ["low", "middle", "tool"])

    def test_but_keeps_nothing_of_another_rt(self):
        self.write("tool", "src/main.rt", "fails\n")
        self.build()
        self.proved()
        self.make_rt(f"{STEPS}\n# another\n")
        self.build()
        self.assertEqual(self.proved(), ["low", "middle", "tool"])
        (self.top / "HANDLES").write_text("Handles allowed: Wait.\n")
        self.build()
        self.assertEqual(self.proved(), ["low", "middle", "tool"])

    def break_off(self, number):
        """Ends build.py by a signal while it proves the middle crate; its status, what it said, and what still runs."""
        self.write("middle", "src/lib.rt", "sleeps\n")
        before, command = self.begun("middle"), self.start_build()
        while self.begun("middle") == before and command.poll() is None:
            time.sleep(0.05)
        below = process_table.processes_below(command.pid)
        command.send_signal(number)
        said = command.communicate()[1]
        time.sleep(0.3)
        mine = [process_table.PROC / str(one.number) for one in below if one.parent == command.pid]
        self.assertEqual(len(mine), 1)
        # one that has ended and that nothing waited for has no words
        return command.returncode, said, [path for path in mine if process_table.text_of(path / "cmdline")]

    def test_after_an_interrupt_a_signal_to_end_and_a_kill(self):
        for number in (signal.SIGINT, signal.SIGTERM):
            status, said, running = self.break_off(number)
            self.assertEqual((status, running), (128 + number, []))
            self.assertIn("broken off with 1 of 3 crates proved", said)
        self.assertEqual(self.break_off(signal.SIGKILL)[0::2], (-signal.SIGKILL, []))
        self.assertEqual(self.proved(), ["low", "middle", "middle", "middle"])
        self.write("middle", "src/lib.rt", "code\n")
        self.assertEqual(self.build()[0], 0)
        self.assertEqual(self.proved(), ["middle", "tool"])


class TellsProgress(Repository):
    def test_at_least_once_in_each_period(self):
        rattle = self.room / "bin" / "rattle"
        rattle.symlink_to(sys.executable)
        words = f"{rattle} -c 'import time; time.sleep(2)' --crate-name low & wait; echo; echo rt: low proved"
        work, said = proving.Proving(self.top, ["tool"], "tool", self.room / "build.log"), io.StringIO()
        with unittest.mock.patch.dict(os.environ, self.environment()), contextlib.redirect_stderr(said):
            work.folder = self.room / "cache" / "work"
            work.prepare()
            with unittest.mock.patch.object(proving, "PERIOD", 0.5):
                self.assertEqual(work.run(["sh", "-c", words], "w"), 0)
        lines = said.getvalue().splitlines()
        self.assertIn("1 of 3 crates proved: low", lines.pop())
        self.assertGreaterEqual(len(lines), 2)
        for line in lines:
            self.assertRegex(line, r"0 of 3 crates proved; in hand: low \(.+\) 0:0\d; left by a guess: ")
        self.assertEqual((self.room / "build.log").read_text(), "\nrt: low proved\n")
        # rt ci says no times, so the pace is that of what was seen in hand
        [(cost, seconds)] = work.took
        self.assertEqual(cost, work.costs["low"])
        self.assertTrue(1.5 <= seconds <= 10, seconds)

    def test_what_an_earlier_run_proved(self):
        work = proving.Proving(self.top, ["tool"], "tool", self.room / "build.log")
        for line in ("kept: low\n", "rt: middle is kept: an earlier run\n", "rt: none is kept: elsewhere\n"):
            work.take(line, [])
        self.assertEqual((work.proved, work.earlier()), (["low", "middle"], ", 2 of them earlier"))

    def test_places_are_the_processors_until_fewer_crates_are_in_hand_than_could_be(self):
        work = proving.Proving(self.top, ["tool"], "tool", self.room / "build.log")
        work.costs = {"low": 100, "middle": 100, "tool": 100}
        work.waits = {"low": [], "middle": [], "tool": []}
        process, guesses = process_table.Process(1, 0, [], "", 0, 0, 0, 0, 0), []
        for crates in (("low", "middle", "tool"), ("low",)):
            work.places, work.is_full, work.command = 1, False, process_table.collections.namedtuple("C", "pid")(1)
            steps = [(process_table.Step(crate, "proof"), process) for crate in crates]
            with unittest.mock.patch.object(process_table, "steps_below", return_value=steps):
                found = work.in_hand()
            with unittest.mock.patch.object(time_left, "in_words", side_effect=guesses.append):
                work.guess(found)
        self.assertEqual(work.ready(), ["low", "middle", "tool"])
        self.assertAlmostEqual(guesses[1], 3 * guesses[0])


class Waits(Builds):
    def test_for_another_call_in_the_clone(self):
        with open(self.top / "crates.txt", "rb") as file:
            fcntl.flock(file, fcntl.LOCK_EX)
            command = self.start_build()
            self.assertIn("another call is at work", command.stderr.readline())
            self.assertEqual(self.proved(), [])
        self.assertIn("tool is built", command.communicate()[1])


class Runs(Builds):
    """The script run, which builds dirac_tool."""

    PROGRAM = "dirac_tool"

    def setUp(self):
        super().setUp()
        shutil.copy(TOOLS.parent / "run", self.top)

    def run_it(self, **how):
        how = {"env": self.environment(**how), "stdin": subprocess.DEVNULL, "capture_output": True, "text": True}
        done = subprocess.run([str(self.top / "run"), "list"], **how)
        return done.returncode, done.stdout, done.stderr

    def age(self, seconds):
        """Makes all sources so old."""
        then = time.time() - seconds
        for path in [self.top / "crates.txt", *self.top.glob("crates/*/src/*")]:
            os.utime(path, (then, then))

    def test_builds_and_runs_and_then_only_runs(self):
        self.age(10)
        status, wrote, said = self.run_it()
        self.assertEqual((status, wrote), (0, "answer list\n"), said)
        self.assertIn("dirac_tool is built", said)
        self.assertEqual(self.run_it(), (0, "answer list\n", ""))
        self.assertEqual(self.proved(), ["low", "middle", "dirac_tool"])

    def test_builds_again_where_a_source_is_newer(self):
        self.run_it()
        self.proved()
        self.write("middle", "src/lib.rt", "other code\n")
        self.assertIn("dirac_tool is built", self.run_it()[2])
        self.assertEqual(self.proved(), ["low", "middle", "dirac_tool"])

    def test_runs_nothing_where_it_could_not_be_built(self):
        self.write("middle", "src/lib.rt", "fails\n")
        status, wrote, said = self.run_it()
        self.assertEqual((status, wrote), (1, ""))
        self.assertIn("fn first: not proved", said)

    @unittest.skipIf(shutil.which("rt", path=PLAIN_PATH), "rt is where everything is")
    def test_says_that_there_is_no_rt(self):
        status, wrote, said = self.run_it(path=PLAIN_PATH)
        self.assertEqual((status, wrote), (1, ""))
        self.assertIn("no command rt", said)


class SumsOfPrograms(Builds):
    def sum_of_program(self, *words):
        wrote, said, status = self.call("sum_of_program.py", *words, "tool")
        return status, wrote + said

    def test_of_a_program_that_is_not_there(self):
        status, said = self.sum_of_program()
        self.assertEqual(status, 1)
        self.assertIn("isn't there", said)

    def test_beside_the_one_that_is_named(self):
        self.build()
        status, said = self.sum_of_program()
        self.assertEqual((status, said.count("\n")), (0, 1))
        mine = said.split()[0]
        self.assertEqual(mine, hashlib.sha256((self.top / "crates/tool/out/tool").read_bytes()).hexdigest())
        for named, answer in ((mine, (0, "names it")), ("0" * 64, (1, "names another one"))):
            (self.top / "README.md").write_text(f"It has the SHA-256\n`{named}`.\n")
            status, said = self.sum_of_program()
            self.assertEqual((status, answer[1] in said), (answer[0], True), said)

    def test_of_two_builds(self):
        self.build()
        status, said = self.sum_of_program("--again")
        self.assertEqual(status, 0, said)
        self.assertIn("the second build gave the same", said)
        (self.top / "crates/tool/out/tool").write_text("another\n")
        status, said = self.sum_of_program("--again")
        self.assertEqual(status, 1)
        self.assertIn("the second build gave another one", said)


class TellsSteps(unittest.TestCase):
    def step(self, words, folder="/clone/crates/low"):
        return process_table.step_of(process_table.Process(1, 0, words.split(), folder, 0, 0, 0, 0, 0))

    def test_of_rattle(self):
        for words, step in (
            ("/kit/bin/rattle build --crate-name low src/lib.rt --statements -o out/rlib/low.rlib", "proof"),
            ("/kit/bin/rattle check --crate-name low src/main.rt -o /room/rt-proved-1/checked", "proof"),
            ("/kit/bin/rattle build --crate-name low src/lib.rt --test -o out/low_tests.o", "tests"),
            ("/kit/bin/rattle check --crate-name low src/lib.rt --incremental /room/rt-edits-1", "edits"),
            ("/kit/bin/rattle build --crate-name low --crate-checked x --backend llvm", "compiling by LLVM"),
            ("/kit/bin/rattle build --crate-name low --crate-checked x --backend rattle",
             "compiling by Rattle's own compiler"),
            ("/kit/bin/rattle-link --target x -o out/low out/low.o", "linking"),
            ("sh -c exec /room/rt-run-a1/bin/low", "running"),
            ("/kit/bin/rattle-test --seconds 60 /room/rt-run-a1/bin/low_tests", "running tests"),
        ):
            self.assertEqual(self.step(words), ("low", step), words)

    def test_of_nothing_else(self):
        self.assertIsNone(self.step("python3 /usr/local/bin/rt ci"))
        self.assertIsNone(self.step(""))

    def test_that_are_in_hand_here(self):
        words = [sys.executable, "-c", "import sys; sys.stdin.read()", "--crate-name", "low"]
        with subprocess.Popen(words, stdin=subprocess.PIPE) as command:
            found = [one for one in process_table.processes_below(os.getpid()) if one.number == command.pid]
            command.stdin.close()
        self.assertEqual(found[0].parent, os.getpid())


class GuessesWhatIsLeft(unittest.TestCase):
    def test_one_place_takes_the_sum(self):
        waits = {"a": [], "b": ["a"], "c": ["a"]}
        self.assertEqual(time_left.seconds_left({"a": 3, "b": 5, "c": 7}, waits, {}, 1), 15)

    def test_two_places_take_the_longest_chain(self):
        waits = {"a": [], "b": ["a"], "c": ["a"]}
        self.assertEqual(time_left.seconds_left({"a": 3, "b": 5, "c": 7}, waits, {}, 2), 10)

    def test_what_is_in_hand_is_partly_done(self):
        self.assertEqual(time_left.seconds_left({"a": 30}, {"a": []}, {"a": 10}, 1), 20)
        self.assertEqual(time_left.seconds_left({"a": 30}, {"a": []}, {"a": 50}, 1), 12.5)

    def test_nothing_left(self):
        self.assertEqual(time_left.seconds_left({}, {}, {}, 4), 0)

    def test_pace_follows_this_machine(self):
        self.assertAlmostEqual(time_left.pace([]), time_left.FIRST_PACE)
        self.assertAlmostEqual(time_left.pace([(100_000, 20_000)]), 0.2, delta=0.01)

    def test_tests_are_left_out_of_the_lines(self):
        with tempfile.TemporaryDirectory() as room:
            source = pathlib.Path(room) / "src"
            source.mkdir()
            (source / "main.rt").write_text("mod code;\n\n#[cfg(test)]\nmod tests;\n")
            (source / "code.rt").write_text("one\ntwo\n")
            (source / "tests.rt").write_text("one\ntwo\nthree\n")
            self.assertEqual(time_left.lines_of(room), 6)


class SumsOfCrates(unittest.TestCase):
    def test_each_file_and_each_crate_below_counts(self):
        with tempfile.TemporaryDirectory() as room:
            top = pathlib.Path(room)
            (top / "crates.txt").write_text("low:\nhigh: low\n")
            for name in ("low", "high"):
                (top / "crates" / name / "src").mkdir(parents=True)
                (top / "crates" / name / "src" / "lib.rt").write_text("code\n")
            first = prove_kept.sums_of(top, ["high"], [])
            (top / "crates/low/src/more.rt").write_text("")
            second = prove_kept.sums_of(top, ["high"], [])
            self.assertNotEqual(first["low"], second["low"])
            self.assertNotEqual(first["high"], second["high"])
            self.assertNotEqual(second, prove_kept.sums_of(top, ["high"], ["another toolchain"]))


if __name__ == "__main__":
    unittest.main()
