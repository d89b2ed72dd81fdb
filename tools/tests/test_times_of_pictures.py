"""tools/times_of_pictures.py on streams of conformance/, whose order is told there."""
import pathlib
import subprocess
import sys
import unittest

TOP = pathlib.Path(__file__).resolve().parent.parent.parent
TOOL = TOP / "tools" / "times_of_pictures.py"


def run(words, data):
    return subprocess.run([sys.executable, str(TOOL), *words], input=data, capture_output=True)


def stream(name):
    return (TOP / "conformance" / "streams" / f"{name}.drc").read_bytes()


def times(words, data):
    first, *lines = run(words, data).stdout.decode().splitlines()
    assert first == "# timestamp format v4"
    return [float(line) for line in lines]


class TimesOfPictures(unittest.TestCase):
    def test_pictures_that_are_coded_ahead(self):
        coded = [0, 4, 1, 2, 3, 8, 5, 6, 7, 12, 11, 10, 9]
        found = times(["25"], stream("delivery_in_another_order"))
        self.assertEqual(found, [40.0 * number for number in coded])

    def test_a_second_sequence_goes_on_behind_the_first(self):
        twice = 2 * stream("delivery_in_another_order")
        first = times(["25"], stream("delivery_in_another_order"))
        self.assertEqual(times(["25"], twice), first + [13 * 40.0 + time for time in first])

    def test_numbers_that_pass_the_greatest(self):
        # from 2^32 - 3 on, over 0: the second of them is shown fourth
        self.assertEqual(times(["1"], stream("numbers_that_wrap"))[:4], [0.0, 3000.0, 1000.0, 2000.0])

    def test_a_rate_of_two_numbers(self):
        second = sorted(times(["30000:1001"], stream("delivery_in_another_order")))[1]
        self.assertAlmostEqual(second, 33.366667, places=6)

    def test_no_end_unit(self):
        data = stream("delivery_in_another_order")
        self.assertEqual(times(["25"], data[:-13]), times(["25"], data))

    def test_refusals(self):
        done = run(["25"], b"not a stream, but so long that it has a parse info")
        self.assertEqual(done.returncode, 1)
        self.assertIn(b"fault unit=0 at=0 cause=BadPrefix", done.stderr)
        done = run(["25"], stream("delivery_in_another_order")[:100])
        self.assertIn(b"at=100 cause=Truncated", done.stderr)
        self.assertEqual(run([], b"").returncode, 1)
        self.assertEqual(run(["0"], b"").returncode, 1)
        self.assertEqual(run(["25:0"], b"").returncode, 1)


if __name__ == "__main__":
    unittest.main()
