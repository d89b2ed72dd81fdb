#!/usr/bin/env python3
"""Runs the element jevmutzaldec over conformance/ and compares what leaves with the table.

check.py [--all]

The stream goes from filesrc to the element, to filesink. The rows of what is written stand at GStreamer's strides; the
samples between are taken out by the sizes that the Python package says. Of a stream with a fault the pictures before it
are compared, and the error that GStreamer prints is to name the fault; but a missing end unit, which containers leave
out, is no error of the element. --all takes all streams in place of each fourth, and tries diracparse before the
element too: with how many streams that agrees is printed, and fails nothing, since diracparse loses units and, where it
finds no picture, gst-launch-1.0 at times never ends (also with nothing behind it but filesink).
"""
import concurrent.futures
import csv
import hashlib
import os
import pathlib
import re
import subprocess
import sys
import tempfile

HERE = pathlib.Path(__file__).resolve().parent
CAPI = HERE.parent
CONFORMANCE = CAPI.parent / "conformance"
SHARE = 4
LONGEST_RUN = 60


def read_table():
    with open(CONFORMANCE / "expected.tsv", newline="") as table:
        return list(csv.reader(table, delimiter="\t"))[1:]


def up(number, unit):
    return -(-number // unit) * unit


def sizes_of(path):
    """Of each picture the sizes of its planes, as the package says."""
    sys.path.insert(0, str(CAPI / "python" / "src"))
    os.environ["JEVMUTZAL_LIBRARY"] = str(CAPI / "out" / "libjevmutzal.so")
    import jevmutzal

    try:
        for picture in jevmutzal.decode(path):
            yield picture.sizes()
    except jevmutzal.Fault:
        pass


def strides(sizes):
    """GStreamer's strides and rows of the planes of I420, Y42B and Y444."""
    (width, height), (chroma_width, chroma_height), _ = sizes
    if chroma_width == width:
        return [(up(width, 4), height)] * 3
    if chroma_height == height:
        return [(up(width, 4), height)] + [(up(width, 8) // 2, height)] * 2
    chroma = (up(up(width, 2) // 2, 4), up(height, 2) // 2)
    return [(up(width, 4), up(height, 2)), chroma, chroma]


def without_padding(data, pictures):
    """The samples alone, and what is wrong with the length, or None."""
    at, found = 0, []
    for sizes in pictures:
        for (width, height), (stride, rows) in zip(sizes, strides(sizes)):
            found += [data[at + row * stride : at + row * stride + width] for row in range(height)]
            at += stride * rows
    return b"".join(found), None if at == len(data) else f"{len(data)} bytes are written, and {at} are expected"


def launch(folder, path, *between):
    out = pathlib.Path(folder) / f"{path.stem}.yuv"
    words = ["gst-launch-1.0", "filesrc", f"location={path}", "!", *between, "jevmutzaldec", "!"]
    # what is shown before a fault is written at once: gst-launch-1.0 ends the sink at the error, with what it holds
    words += ["filesink", "buffer-mode=unbuffered", f"location={out}"]
    registry = pathlib.Path(folder) / "registry.bin"
    environment = {**os.environ, "GST_PLUGIN_PATH": str(HERE / "out"), "GST_REGISTRY": str(registry)}
    how = {"capture_output": True, "env": environment, "stdin": subprocess.DEVNULL}
    try:
        done = subprocess.run(words, timeout=LONGEST_RUN, **how)
    except subprocess.TimeoutExpired:
        return None, f"no answer in {LONGEST_RUN} seconds", b""
    data = out.read_bytes() if out.exists() else b""
    return done.returncode, done.stderr.decode(errors="replace"), data


def wrong_of(folder, row, *between):
    """What a stream gave else than the table, or None."""
    stream, _, _, md5, text = row
    path = CONFORMANCE / "streams" / f"{stream}.drc"
    status, said, data = launch(folder, path, *between)
    if status is None:
        return f"{stream}: {said}"
    fault = text.partition("|")[2]
    wanted = "" if fault.endswith("cause=MissingEnd") else fault
    named = re.search(r"fault unit=\d+ at=\d+ cause=\w+", said)
    samples, wrong = without_padding(data, sizes_of(path))
    if wrong:
        return f"{stream}: {wrong}: {said[-300:]}"
    if hashlib.md5(samples).hexdigest() != md5:
        return f"{stream}: other samples"
    if (named[0] if named else "") != wanted or bool(status) != bool(wanted):
        return f"{stream}: status {status}, {named and named[0]!r}, expected {wanted!r}: {said[-300:]}"
    return None


def main():
    rows = read_table() if "--all" in sys.argv else read_table()[::SHARE]
    with tempfile.TemporaryDirectory(prefix="gstreamer-") as folder:
        # one run first, which writes the list of plug-ins that the others read
        launch(folder, CONFORMANCE / "streams" / f"{rows[0][0]}.drc")
        with concurrent.futures.ThreadPoolExecutor(os.cpu_count()) as pool:
            found = list(filter(None, pool.map(lambda row: wrong_of(folder, row), rows)))
            said = f"{len(rows) - len(found)} of {len(rows)} streams"
            if "--all" in sys.argv:
                parsed = list(filter(None, pool.map(lambda row: wrong_of(folder, row, "diracparse", "!"), rows)))
                said += f"; behind diracparse {len(rows) - len(parsed)}"
                if "--tell" in sys.argv:
                    print("\n".join(parsed))
    print("\n".join([*found[:10], said]))
    sys.exit(1 if found else 0)


if __name__ == "__main__":
    main()
