"""The script that builds the library and runs it."""
import pathlib
import sys
import tempfile
import time
import unittest

sys.path.insert(0, str(pathlib.Path(__file__).resolve().parents[1]))

import check


class Limit(unittest.TestCase):
    def test_status_of_a_command_that_ends_in_time(self):
        self.assertEqual([check.status_within([name], 60) for name in ("true", "false")], [0, 1])
        self.assertEqual(check.status_within(["sh", "-c", "exit 7"], None), 7)

    def test_what_takes_longer_is_ended_with_all_that_it_started(self):
        with tempfile.TemporaryDirectory() as folder:
            late = pathlib.Path(folder) / "late"
            begin = time.monotonic()
            self.assertIsNone(check.status_within(["sh", "-c", f"sh -c 'sleep 2; : > {late}' & wait"], 0.2))
            self.assertLess(time.monotonic() - begin, 2)
            time.sleep(2.5)
            self.assertFalse(late.exists())


if __name__ == "__main__":
    unittest.main()
