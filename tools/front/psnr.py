"""PSNR of pictures, plane by plane."""
import math
from operator import sub

# by a difference from -255 to 255, as an index
_SQUARES = [n * n for n in range(256)] + [n * n for n in range(-255, 0)]
PLANES = "YUV"


def squares(one, other):
    """The sum of the squared differences of two planes."""
    return 0 if one == other else sum(map(_SQUARES.__getitem__, map(sub, one, other)))


def decibels(total, count):
    """PSNR of so many samples whose squared differences have this sum; None where they are the same."""
    return None if total == 0 else 10 * math.log10(255 * 255 * count / total)


def text(value):
    return "same" if value is None else f"{value:.2f}"


class Measure:
    """Sums over pictures of one kind."""

    def __init__(self, video):
        self.video, self.count, self.totals = video, 0, [0, 0, 0]
        self.samples = [width * height for width, height in video.plane_sizes()]

    def add(self, one, other):
        """Takes a picture of each, and gives the PSNR of their planes."""
        sums = [squares(*planes) for planes in zip(self.video.planes(one), self.video.planes(other))]
        self.totals = [total + new for total, new in zip(self.totals, sums)]
        self.count += 1
        return [decibels(*pair) for pair in zip(sums, self.samples)]

    def all(self):
        return [decibels(total, self.count * samples) for total, samples in zip(self.totals, self.samples)]


def line(values):
    return "  ".join(f"{plane} {text(value)}" for plane, value in zip(PLANES, values))
