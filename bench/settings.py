#!/usr/bin/env python3
"""Measures what the settings of `encode` are worth on natural clips: bytes at equal PSNR of luma.

settings.py [--keep FILE] [--width N] [--first N] [--pictures N] [--index N] WHAT PROGRAM CLIP...

PROGRAM is dirac_tool, built (`./run list < /dev/null` builds it at crates/dirac_tool/out/dirac_tool). Wants ffmpeg, for
`others` with libx264. Clips are scaled to a width, 320 where none is said, and so many pictures are taken of them, 24,
from one on, picture 24. WHAT is one of these:

alone       one setting is changed at a time, with all others as they are by default
best        looks, for each index apart, for settings that together give few bytes: goes over the settings of SOUGHT in
            turn, from value to value while it gets better, and keeps of each the best
taken       the settings of TAKEN, and those of PLAYABLE, which ffmpeg's decoder shows exactly (docs/PLAYERS.md)
others      the bytes of TAKEN to those of the defaults, of MPEG-2 and of x264 at equal PSNR, in groups of 12 pictures

A figure is the ratio of bytes to those that the defaults need for the same PSNR of luma, the mean of the clips: of
their ratios' logarithms. What the defaults need between two of their indices is interpolated, bytes by their
logarithm. Where a clip's PSNR is one that the defaults don't come down to at any index, the figure is the ratio to
their bytes at the same index, with the difference of PSNR beside it. Measures are kept in FILE as they are made, a line
each, and not made again; so a run can be broken off.

Debian's package opencv-doc has clips: vtest.avi, Megamind.avi and tree.avi in /usr/share/doc/opencv-doc/examples/data,
and opencv4/html/box.mp4.gz.
"""
import argparse
import bisect
import math
import pathlib
import re
import resource
import shutil
import subprocess
import sys
import tempfile
from typing import NamedTuple

INDICES = [8, 16, 24, 32, 40]
LEAST_GAIN = 0.002
CURVE_INDICES = list(range(4, 49, 4))
GROUP = 12
VALUES = {
    "bias": [0, 2, 4, 8, 16, 32, 64, 128, 255],
    "blocks": [2, 3, 4],
    "between": [0, 1, 2, 3],
    "range": [1, 2, 4, 8, 16],
    "precision": [0, 1, 2, 3],
    "references": [1, 2],
    "wavelet": [0, 1, 2, 3, 4, 5, 6],
    "depth": [2, 3, 4],
    "codeblocks": [1, 4],
    "gop": [1, 12, 24],
}
DEFAULTS = {"bias": 4, "blocks": 2, "between": 2, "range": 4, "precision": 2, "references": 2}
DEFAULTS |= {"wavelet": 0, "depth": 4, "codeblocks": 1, "gop": 12}
# what `best` goes over: `gop` would change where a stream can be entered, the other wavelets never pay
SOUGHT = ["bias", "between", "depth", "blocks", "wavelet", "precision", "codeblocks", "bias"]
SOUGHT_WAVELETS = [0, 1, 2, 4, 6]
UNORDERED = ["blocks", "wavelet"]
# the settings to take by index, as docs/ENCODER.md has them, and those that ffmpeg's decoder shows exactly
COMMON = {"between": 1, "codeblocks": 4}
TAKEN = {
    8: COMMON | {"depth": 2, "wavelet": 4},
    16: COMMON | {"depth": 2, "wavelet": 2},
    24: COMMON | {"bias": 16, "depth": 3, "wavelet": 2, "blocks": 4},
    32: COMMON | {"bias": 64, "wavelet": 2, "blocks": 4},
    40: COMMON | {"bias": 128, "wavelet": 2, "blocks": 4},
}
PLAYABLE = {index: settings | {"blocks": 2, "precision": 0} for index, settings in TAKEN.items()}
OTHERS = {
    "MPEG-2": (["-c:v", "mpeg2video", "-bf", "2", "-f", "mpeg2video"], "-qscale:v", [2, 3, 4, 6, 9, 13, 19, 31]),
    # without the text of its options, which is longer than a picture
    "x264": (
        ["-c:v", "libx264", "-bf", "2", "-bsf:v", "filter_units=remove_types=6", "-f", "h264"],
        "-crf",
        list(range(1, 50, 4)),
    ),
}


def run(words, **more):
    done = subprocess.run([str(word) for word in words], capture_output=True, **more)
    if done.returncode != 0:
        sys.exit(f"settings.py: {' '.join(map(str, words))}: status {done.returncode}\n{done.stderr.decode()[-500:]}")
    return done


class Clip:
    """The raw pictures of a clip, 4:2:0, scaled."""

    def __init__(self, path, folder, width, first, pictures):
        self.name = pathlib.Path(path).stem
        self.raw = pathlib.Path(folder, f"{self.name}.yuv")
        self.pictures = f"{first}+{pictures}"
        last = first + pictures
        cut = f"trim=start_frame={first}:end_frame={last},scale={width}:-2,format=yuv420p"
        words = ["ffmpeg", "-v", "fatal", "-y", "-threads", 1, "-i", path, "-vf", cut, "-fps_mode", "passthrough"]
        run([*words, "-f", "rawvideo", self.raw])
        self.width = width
        self.height = self.raw.stat().st_size * 2 // (3 * width * pictures)
        if self.width * self.height * 3 // 2 * pictures != self.raw.stat().st_size:
            sys.exit(f"settings.py: {path} has no {last} pictures")

    def size(self):
        return f"{self.width}x{self.height}"


class Measure(NamedTuple):
    """The bytes of a stream, the PSNR of its luma, and the processor's seconds that it took to make."""

    length: int
    psnr: float
    seconds: float


class Bench:
    """Encodes and compares, and keeps what it measured."""

    def __init__(self, program, clips, folder, keep):
        self.program, self.clips, self.folder, self.keep = program, clips, pathlib.Path(folder), keep
        self.known = {}
        self.curves = {}
        if keep is not None and keep.exists():
            for line in keep.read_text().splitlines():
                *key, length, psnr, seconds = line.split("\t")
                self.known[tuple(key)] = Measure(int(length), float(psnr), float(seconds))

    def note(self, key, measure):
        self.known[key] = measure
        if self.keep is not None:
            with self.keep.open("a") as file:
                print(*key, *measure, sep="\t", file=file)
        return measure

    def psnr(self, clip, shown):
        """Of luma, from the mean of the squares over all pictures."""
        raw = ["-f", "rawvideo", "-pix_fmt", "yuv420p", "-s", clip.size(), "-i"]
        words = ["ffmpeg", "-nostdin", "-threads", 1, *raw, shown, *raw, clip.raw, "-lavfi", "psnr", "-f", "null", "-"]
        return float(re.search(r"PSNR y:(\S+)", run(words).stderr.decode()).group(1))

    def ours(self, clip, settings, index):
        changed = [name for name in DEFAULTS if settings.get(name, DEFAULTS[name]) != DEFAULTS[name]]
        words = [f"--{name}={settings[name]}" for name in changed]
        key = (f"{clip.name} {clip.size()} {clip.pictures}", " ".join(words), str(index))
        if key in self.known:
            return self.known[key]
        shown = self.folder / "shown.yuv"
        words += [f"--width={clip.width}", f"--height={clip.height}", f"--index={index}", f"--recon={shown}"]
        begin = seconds_of_children()
        with clip.raw.open("rb") as raw:
            stream = run([self.program, "encode", *words], stdin=raw).stdout
        seconds = seconds_of_children() - begin
        return self.note(key, Measure(len(stream), self.psnr(clip, shown), seconds))

    def other(self, clip, name, quality):
        words, option, _ = OTHERS[name]
        key = (f"{clip.name} {clip.size()} {clip.pictures}", name, str(quality))
        if key in self.known:
            return self.known[key]
        stream, shown = self.folder / "other", self.folder / "shown.yuv"
        raw = ["-f", "rawvideo", "-pix_fmt", "yuv420p", "-s", clip.size(), "-r", 25, "-i", clip.raw]
        front = ["ffmpeg", "-nostdin", "-v", "error", "-y", "-threads", 1]
        begin = seconds_of_children()
        run([*front, *raw, "-threads", 1, "-g", GROUP, *words[:-2], option, quality, *words[-2:], stream])
        seconds = seconds_of_children() - begin
        back = ["-fps_mode", "passthrough", "-f", "rawvideo", "-pix_fmt", "yuv420p", shown]
        run([*front, "-r", 25, "-i", stream, *back])
        return self.note(key, Measure(stream.stat().st_size, self.psnr(clip, shown), seconds))

    def curve(self, clip):
        """The curve of the defaults."""
        if clip.name not in self.curves:
            self.curves[clip.name] = curve_of([self.ours(clip, {}, index) for index in CURVE_INDICES])
        return self.curves[clip.name]

    def ratio(self, settings, index):
        """Bytes to those that the defaults need for the same PSNR, or None where they have no such PSNR."""
        total = 0.0
        for clip in self.clips:
            measure = self.ours(clip, settings, index)
            default = interpolated(self.curve(clip), measure.psnr)
            if default is None:
                return None
            total += math.log(measure.length) - default
        return math.exp(total / len(self.clips))

    def cell(self, settings, index):
        ratio = self.ratio(settings, index)
        if ratio is not None:
            return f"{ratio:.3f}"
        pairs = [(self.ours(clip, settings, index), self.ours(clip, {}, index)) for clip in self.clips]
        length = sum(math.log(one.length / other.length) for one, other in pairs) / len(pairs)
        distance = sum(one.psnr - other.psnr for one, other in pairs) / len(pairs)
        return f"{math.exp(length):.2f} at {distance:+.1f} dB"

    def psnr_of(self, settings, index):
        """Of the clips, in their order."""
        return ", ".join(f"{self.ours(clip, settings, index).psnr:.1f}" for clip in self.clips)

    def seconds_of(self, settings, indices):
        """The processor's seconds for all clips at these indices."""
        return sum(self.ours(clip, settings, index).seconds for clip in self.clips for index in indices)


def seconds_of_children():
    used = resource.getrusage(resource.RUSAGE_CHILDREN)
    return used.ru_utime + used.ru_stime


def curve_of(measures):
    """Points of PSNR and the logarithm of bytes, both rising: without those that a shorter stream surpasses."""
    points = []
    for measure in sorted(measures, key=lambda measure: (measure.length, -measure.psnr)):
        if not points or measure.psnr > points[-1][0]:
            points.append((measure.psnr, math.log(measure.length)))
    return points


def interpolated(points, x):
    """The value at x of the lines through these points, or None outside of them."""
    if not points[0][0] <= x <= points[-1][0]:
        return None
    place = min(bisect.bisect([point[0] for point in points], x), len(points) - 1)
    (x0, y0), (x1, y1) = points[place - 1], points[place]
    return y0 + (y1 - y0) * (x - x0) / (x1 - x0)


def measure_alone(bench, indices):
    print("| Setting | " + " | ".join(f"index {index}" for index in indices) + " | Time |")
    print("|---|" + "---|" * (len(indices) + 1))
    for name, values in VALUES.items():
        for value in values:
            if value == DEFAULTS[name]:
                continue
            cells = [bench.cell({name: value}, index) for index in indices]
            cells.append(f"{bench.seconds_of({name: value}, indices) / bench.seconds_of({}, indices):.2f}")
            print(f"| {name} {value} | " + " | ".join(cells) + " |", flush=True)


def found_best(bench, index):
    """Settings of few bytes at an index, and their ratio."""
    settings, best = {}, 1.0
    for name in SOUGHT:
        values = SOUGHT_WAVELETS if name == "wavelet" else VALUES[name]
        here = values.index(settings.get(name, DEFAULTS[name]))
        for way in (reversed(values[:here]), values[here + 1 :]):
            for value in way:
                ratio = bench.ratio(settings | {name: value}, index)
                if ratio is not None and ratio < best - LEAST_GAIN:
                    settings, best = settings | {name: value}, ratio
                elif name not in UNORDERED:
                    break
    return settings, best


def tell(bench, index, settings):
    time = bench.seconds_of(settings, [index]) / bench.seconds_of({}, [index])
    words = " ".join(f"--{name}={value}" for name, value in settings.items() if value != DEFAULTS[name])
    cells = [index, f"`{words}`", bench.cell(settings, index), f"{time:.2f}", bench.psnr_of(settings, index)]
    print("| " + " | ".join(map(str, cells)) + " |", flush=True)


def measure_best(bench, indices):
    for index in indices:
        tell(bench, index, found_best(bench, index)[0])


def measure_taken(bench, indices):
    for table in (TAKEN, PLAYABLE):
        for index in indices:
            tell(bench, index, table[index])


def measure_others(bench, indices):
    heads = ["Clip", "Index", "PSNR of luma", "Bytes", "Of the defaults'", *[f"Of {name}'s" for name in OTHERS]]
    print("| " + " | ".join(heads) + " |")
    print("|---|---|---|---|---|" + "---|" * len(OTHERS))
    for clip in bench.clips:
        curves = {name: curve_of([bench.other(clip, name, q) for q in OTHERS[name][2]]) for name in OTHERS}
        for index in indices:
            taken = bench.ours(clip, TAKEN[index], index)
            cells = [f"{taken.length}"]
            for curve in [bench.curve(clip), *curves.values()]:
                found = interpolated(curve, taken.psnr)
                cells.append("-" if found is None else f"{taken.length / math.exp(found):.2f}")
            print(f"| {clip.name} | {index} | {taken.psnr:.1f} | " + " | ".join(cells) + " |")


MEASURES = {"alone": measure_alone, "best": measure_best, "taken": measure_taken, "others": measure_others}


def main():
    words = argparse.ArgumentParser(description="bytes at equal PSNR, by settings")
    words.add_argument("--keep", type=pathlib.Path)
    words.add_argument("--width", type=int, default=320)
    words.add_argument("--first", type=int, default=24)
    words.add_argument("--pictures", type=int, default=24)
    words.add_argument("--index", type=int, choices=INDICES)
    words.add_argument("what", choices=MEASURES)
    words.add_argument("program")
    words.add_argument("clips", nargs="+")
    given = words.parse_args()
    for command in (given.program, "ffmpeg"):
        if shutil.which(command) is None:
            sys.exit(f"settings.py: no such command: {command}")
    with tempfile.TemporaryDirectory() as folder:
        clips = [Clip(path, folder, given.width, given.first, given.pictures) for path in given.clips]
        indices = INDICES if given.index is None else [given.index]
        MEASURES[given.what](Bench(given.program, clips, folder, given.keep), indices)


if __name__ == "__main__":
    main()
