"""tools/parts.py by the plain encoder, with stand-ins for `join`, ssh and Slurm."""
import pathlib
import subprocess
import sys
import tempfile
import unittest

TOP = pathlib.Path(__file__).resolve().parent.parent.parent
TOOL = TOP / "tools" / "parts.py"
sys.path.insert(0, str(TOP / "bench" / "reference"))

import encoder

SMALL = {"width": 8, "height": 8, "depth": 1, "gop": 2, "index": 6, "range": 0, "pyramid": 0, "precision": 0}
WORDS = [f"--{name}={value}" for name, value in SMALL.items()]
PICTURE = 8 * 8 * 3 // 2
# the plain encoder, and in place of `join` what it reads; a run that finds the file `fail` takes it away and fails
PROGRAM = """#!/usr/bin/env bash
if [ "$1" = join ]; then exec cat; fi
if [ -e {folder}/fail ]; then rm {folder}/fail; head -c 100; exit 11; fi
exec {python} {plain} "$@"
"""
SSH = """#!/usr/bin/env bash
echo "$1" >> {folder}/hosts
exec bash -c "$2"
"""
SBATCH = """#!/usr/bin/env bash
echo "$*" >> {folder}/jobs
echo "71;cluster"
"""


def encoded(pictures, **more):
    return encoder.encode(encoder.default_settings(0) | SMALL | more, pictures).stream


class Parts(unittest.TestCase):
    def setUp(self):
        holder = tempfile.TemporaryDirectory(prefix="parts of ")
        self.addCleanup(holder.cleanup)
        self.folder = pathlib.Path(holder.name)
        plain = TOP / "tests" / "plain_tool.py"
        for name, text in (("dirac_tool", PROGRAM), ("ssh", SSH), ("sbatch", SBATCH)):
            script = self.folder / name
            script.write_text(text.format(folder=f"'{self.folder}'", python=sys.executable, plain=plain))
            script.chmod(0o755)
        settings = encoder.default_settings(0) | SMALL
        self.pictures = b"".join(encoder.generated_picture(settings, number) for number in range(7))

    def plan(self, words, status=0, pictures=None):
        (self.folder / "in.yuv").write_bytes(self.pictures if pictures is None else pictures)
        command = [sys.executable, TOOL, f"--program={self.folder / 'dirac_tool'}", *words]
        done = subprocess.run(
            [*command, "in.yuv", "out.drc", *WORDS], cwd=self.folder, env=self.environment(), capture_output=True
        )
        self.assertEqual(done.returncode, status, done.stderr.decode())
        return done.stdout.decode() if status == 0 else done.stderr.decode()

    def environment(self):
        return {"PATH": f"{self.folder}:/usr/local/bin:/usr/bin:/bin"}

    def run_script(self, *words):
        script = [self.folder / "out.drc.parts" / words[0], *words[1:]]
        return subprocess.run(script, env=self.environment(), capture_output=True).returncode

    def test_parts_begin_where_groups_do(self):
        self.assertEqual(self.plan(["--by=none", "--parts=3"]), "2 parts of at most 2 groups, in out.drc.parts\n")
        self.assertEqual([self.run_script("part", "0"), self.run_script("part", "1"), self.run_script("join")], [0] * 3)
        first, last = self.pictures[: 4 * PICTURE], self.pictures[4 * PICTURE :]
        self.assertEqual((self.folder / "out.drc").read_bytes(), encoded(first) + encoded(last))

    def test_a_part_that_fails_is_done_again(self):
        self.plan(["--by=none", "--parts=4"])
        (self.folder / "fail").touch()
        self.assertEqual(self.run_script("part", "3"), 0)
        self.assertEqual((self.folder / "out.drc.parts/00003.drc").read_bytes(), encoded(self.pictures[6 * PICTURE :]))
        self.plan(["--by=none", "--parts=4", "--tries=1"])
        (self.folder / "fail").touch()
        self.assertEqual(self.run_script("part", "3"), 1)
        self.assertFalse((self.folder / "out.drc.parts/00003.drc").exists())
        self.assertNotEqual(self.run_script("join"), 0)
        self.assertFalse((self.folder / "out.drc").exists())

    def test_parts_stay_where_nothing_changed(self):
        self.plan(["--by=none"])
        self.assertEqual(self.run_script("part", "1"), 0)
        part = self.folder / "out.drc.parts" / "00001.drc"
        (self.folder / "fail").touch()
        self.assertEqual(self.run_script("part", "1"), 0)
        self.assertTrue((self.folder / "fail").exists())
        self.plan(["--by=none", "--parts=2"])
        self.assertFalse(part.exists())

    def test_hosts_take_turns(self):
        self.plan(["--by=none", "--hosts=ada,grace"])
        (self.folder / "fail").touch()
        self.assertEqual([self.run_script("part", "0"), self.run_script("part", "1")], [0, 0])
        self.assertEqual((self.folder / "hosts").read_text().split(), ["ada", "grace", "grace"])
        self.assertEqual((self.folder / "out.drc.parts/00000.drc").read_bytes(), encoded(self.pictures[: 2 * PICTURE]))

    def test_slurm(self):
        self.assertIn("job 71;cluster joins the parts of array 71\n", self.plan(["--by=slurm", "--jobs=2"]))
        array, join = (self.folder / "jobs").read_text().splitlines()
        self.assertIn("--array=0-3%2", array)
        self.assertTrue(array.endswith("out.drc.parts/part"))
        self.assertIn("--dependency=afterok:71", join)

    def test_refusals(self):
        self.assertIn("no whole raw pictures", self.plan(["--by=none"], 1, self.pictures[1:]))
        self.assertIn("no whole raw pictures", self.plan(["--by=none"], 1, b""))
        self.assertIn("--recon=x", self.plan(["--by=none", "--recon=x"], 2))
        self.assertIn("bad setting wavelet=9", self.plan(["--by=none", "--wavelet=9"], 2))
        self.assertIn("--gop=2: said before", self.plan(["--by=none", "--gop=3"], 2))
        self.assertIn("no word of encode", self.plan(["--by=none", "--speed=9"], 2))


if __name__ == "__main__":
    unittest.main()
