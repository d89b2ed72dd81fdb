"""What bench/settings.py and bench/players.py work out by themselves, without a program and without ffmpeg."""
import math
import pathlib
import sys
import unittest

TOP = pathlib.Path(__file__).resolve().parent.parent.parent
sys.dont_write_bytecode = True
sys.path.insert(0, str(TOP / "bench"))

import players
import settings


class Curves(unittest.TestCase):
    def test_between_two_points(self):
        self.assertEqual(settings.interpolated([(30.0, 2.0), (40.0, 4.0), (50.0, 5.0)], 35.0), 3.0)
        self.assertEqual(settings.interpolated([(30.0, 2.0), (40.0, 4.0), (50.0, 5.0)], 50.0), 5.0)
        self.assertEqual(settings.interpolated([(30.0, 2.0), (40.0, 4.0)], 30.0), 2.0)

    def test_outside_of_all_points(self):
        self.assertIsNone(settings.interpolated([(30.0, 2.0), (40.0, 4.0)], 29.9))
        self.assertIsNone(settings.interpolated([(30.0, 2.0), (40.0, 4.0)], 40.1))

    def test_points_that_a_shorter_stream_surpasses_are_left_out(self):
        points = [(200, 40.0), (100, 30.0), (110, 29.0)]
        measures = [settings.Measure(length, psnr, 1.0) for length, psnr in points]
        self.assertEqual(settings.curve_of(measures), [(30.0, math.log(100)), (40.0, math.log(200))])


class Compared(unittest.TestCase):
    SIZE = players.Size(2, 2)

    def test_the_same(self):
        self.assertEqual(players.compared(self.SIZE, b"abcdef", b"abcdef", ""), players.Shown("the same", 0, 0, 0, 0))

    def test_samples_that_differ(self):
        right, found = bytes([10, 20, 30, 40, 50, 60]) * 2, bytes([10, 20, 30, 40, 50, 60, 10, 25, 30, 40, 43, 60])
        messages = "Reference frame overflow\nReference frame overflow\n"
        shown = players.compared(self.SIZE, right, found, messages)
        self.assertEqual(shown, players.Shown("other samples", 1, 2, 7, 2))

    def test_pictures_that_are_missing(self):
        self.assertEqual(players.compared(self.SIZE, b"abcdef" * 3, b"abcdef", "").kind, "fewer pictures")
        self.assertEqual(players.compared(self.SIZE, b"abcdef" * 3, b"abcdef", "").pictures, 2)
        self.assertEqual(players.compared(self.SIZE, b"abcdef", b"", "").kind, "nothing")

    def test_resampled(self):
        doubled = players.resampled(b"abcduv", self.SIZE, players.Size(4, 4), lambda n, new, old: n // 2)
        self.assertEqual(doubled, b"aabb" * 2 + b"ccdd" * 2 + b"uuuu" + b"vvvv")


if __name__ == "__main__":
    unittest.main()
