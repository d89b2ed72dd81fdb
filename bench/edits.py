#!/usr/bin/env python3
"""Cuts and joins streams of real length, and plays what comes out by ffmpeg.

edits.py PROGRAM        PROGRAM is dirac_tool, built (`./run list < /dev/null` builds it at
                        crates/dirac_tool/out/dirac_tool)

Wants ffmpeg, which also makes the pictures. What `cut` and `join` write is decoded by the program and by ffmpeg, and
compared, byte by byte, with what each of them shows of the whole streams: a group shows the same pictures wherever it
stands. (Of intra pictures ffmpeg shows what `encode --recon` says, of a few samples of inter pictures it doesn't.)
Prints a row for each cut and each joined stream, with the processor time beside that of `decode` on the same input,
since both commands decode what they read before they write. Ends with 1 where any of them differs.
"""
import os
import pathlib
import shutil
import subprocess
import sys
import tempfile
from typing import NamedTuple

WIDTH, HEIGHT = 352, 288
PICTURE = WIDTH * HEIGHT * 3 // 2
GROUP = 12
SETTINGS = [f"--width={WIDTH}", f"--height={HEIGHT}", "--chroma=2", f"--gop={GROUP}", "--index=24"]
# the distance of the groups that are cut one by one
EACH = 8
# the pictures of each stream: a moving chart, and a picture that is entered deeper and deeper
SOURCES = {"chart": ("testsrc2", 300), "depths": ("mandelbrot", 100)}


def run(words, given=b""):
    """What a command writes and its processor time; the whole ends where it fails."""
    before = os.times()
    done = subprocess.run([str(word) for word in words], input=given, stdout=subprocess.PIPE, stderr=subprocess.PIPE)
    after = os.times()
    if done.returncode != 0:
        said = done.stderr.decode(errors="replace").strip()
        sys.exit(f"edits.py: status {done.returncode} of {' '.join(map(str, words))}: {said}")
    spent = after.children_user + after.children_system - before.children_user - before.children_system
    return done.stdout, spent


def pictures_of(source, count):
    pattern = f"{source}=size={WIDTH}x{HEIGHT}:rate=25"
    words = ["ffmpeg", "-v", "error", "-f", "lavfi", "-i", pattern, "-frames:v", count]
    return run(words + ["-pix_fmt", "yuv420p", "-f", "rawvideo", "-"])[0]


def played(stream):
    words = ["ffmpeg", "-cpuflags", "0", "-v", "error", "-f", "dirac", "-i", "-", "-fps_mode", "passthrough"]
    return run(words + ["-f", "rawvideo", "-pix_fmt", "yuv420p", "-"], stream)[0]


def units_of(program, stream):
    """How many sequence headers, pictures and end units a stream has."""
    names = [line.split()[3] for line in run([program, "list"], stream)[0].decode().splitlines()]
    return " ".join(str(names.count(name)) for name in ("sequence", "picture", "end"))


class Shown(NamedTuple):
    """The pictures that a stream shows, to the program and to ffmpeg."""

    ours: bytes
    theirs: bytes

    def groups(self, first, last):
        place = slice(first * GROUP * PICTURE, last * GROUP * PICTURE)
        return Shown(self.ours[place], self.theirs[place])


def together(parts):
    return Shown(b"".join(part.ours for part in parts), b"".join(part.theirs for part in parts))


class Bench:
    def __init__(self, program):
        self.program = program
        self.differs = False

    def row(self, name, words, given, shown):
        """Runs an edit, and compares what it shows with what it is to show, to the program and to ffmpeg."""
        _, checking = run([self.program, "decode"], given)
        stream, spent = run([self.program] + words, given)
        ours = run([self.program, "decode"], stream)[0] == shown.ours
        theirs = played(stream) == shown.theirs
        self.differs = self.differs or not (ours and theirs)
        cells = [name, units_of(self.program, given), units_of(self.program, stream), len(given), len(stream)]
        cells += [len(shown.ours) // PICTURE, "yes" if ours else "NO", "yes" if theirs else "NO"]
        cells += [f"{spent:.2f} s", f"{spent / checking:.2f}"]
        print("| " + " | ".join(map(str, cells)) + " |", flush=True)
        return stream


def encoded(program, source, count):
    """A stream and the pictures that it shows."""
    with tempfile.TemporaryDirectory() as folder:
        path = pathlib.Path(folder) / "recon"
        stream, _ = run([program, "encode", f"--recon={path}"] + SETTINGS, pictures_of(source, count))
        return stream, Shown(path.read_bytes(), played(stream))


def main():
    if len(sys.argv) != 2:
        sys.exit("usage: edits.py PROGRAM")
    program = sys.argv[1]
    for command in (program, "ffmpeg"):
        if shutil.which(command) is None:
            sys.exit(f"edits.py: no such command: {command}")
    bench = Bench(program)
    chart, chart_shown = encoded(program, *SOURCES["chart"])
    depths, depths_shown = encoded(program, *SOURCES["depths"])
    print("| Edit | Headers, pictures and ends read | Written | Bytes read | Written | Pictures shown "
          "| `decode` shows them | ffmpeg too | Time | Of `decode` of the input |")
    print("|---|---|---|---|---|---|---|---|---|---|")
    points = -(-len(chart_shown.ours) // (GROUP * PICTURE))
    parts = []
    for first, last in ((0, 1), (5, 20), (20, points)):
        words = ["cut", f"--from={first}", f"--to={last}"]
        part = chart_shown.groups(first, last)
        parts.append((bench.row(f"`{' '.join(words)}`", words, chart, part), part))
    alone = range(0, points, EACH)
    each = [run([program, "cut", f"--from={point}", f"--to={point + 1}"], chart)[0] for point in alone]
    every = together([chart_shown.groups(point, point + 1) for point in alone])
    bench.row(f"`join` of every {EACH}th group, cut one by one", ["join"], b"".join(each), every)
    bench.row("`join` of the last part, the first and the middle one", ["join"],
              parts[2][0] + parts[0][0] + parts[1][0], together([parts[2][1], parts[0][1], parts[1][1]]))
    bench.row("`join` of both streams", ["join"], chart + depths, together([chart_shown, depths_shown]))
    sys.exit(1 if bench.differs else 0)


if __name__ == "__main__":
    main()
