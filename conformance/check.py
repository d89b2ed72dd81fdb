#!/usr/bin/env python3
"""Runs a decoder over the streams of this folder and compares what it writes with expected.tsv.

check.py [--pictures] [--only=PART] COMMAND WORD...

COMMAND is run once a stream, without a shell. The stream is its standard input, or stands where a word is {}. It is to
write the raw pictures to standard output: the rows of Y, then U, then V, one byte a sample. Compared are the pictures'
MD5 sum, the exit status, and the lines on standard error (`pictures=N references=M`, and at a fault
`fault unit=U at=A cause=C`).

--pictures      for other decoders: compares the pictures alone, of the streams without a fault
--only=PART     takes the streams with PART in their name

Prints a line for each stream that differs, and at the end how many agree. Ends with 1 where one differs.

check.py ./run decode
check.py python3 bench/reference/decode.py
check.py --pictures ffmpeg -v error -f dirac -i - -fps_mode passthrough -f rawvideo -
"""
import concurrent.futures
import csv
import hashlib
import os
import pathlib
import shutil
import subprocess
import sys
from typing import NamedTuple

FOLDER = pathlib.Path(__file__).resolve().parent
LONGEST_RUN = 120


class Expected(NamedTuple):
    stream: str
    status: str
    pictures: str
    md5: str
    text: str


def read_table():
    try:
        with open(FOLDER / "expected.tsv", newline="") as table:
            rows = list(csv.reader(table, delimiter="\t"))[1:]
        return [Expected(*row) for row in rows]
    except OSError as error:
        sys.exit(f"check.py: {error.filename}: {error.strerror}")
    except TypeError:
        sys.exit("check.py: expected.tsv has a row that isn't of five columns")


def run(command, path):
    words = [str(path) if word == "{}" else word for word in command]
    try:
        with open(path, "rb") as stream:
            return subprocess.run(words, stdin=stream, capture_output=True, timeout=LONGEST_RUN)
    except subprocess.TimeoutExpired:
        return None


def differences(expected, done, pictures_alone):
    """What differs, in a few words each."""
    if done is None:
        yield f"no answer in {LONGEST_RUN} seconds"
        return
    md5 = hashlib.md5(done.stdout).hexdigest()
    if md5 != expected.md5:
        wanted = f"{expected.pictures} pictures of {expected.md5}"
        yield f"pictures: {len(done.stdout)} bytes of MD5 {md5}, expected {wanted}"
    if pictures_alone:
        return
    if str(done.returncode) != expected.status:
        yield f"status {done.returncode}, expected {expected.status}"
    text = done.stderr.decode(errors="replace").rstrip("\n").replace("\n", "|")
    if text != expected.text:
        yield f"text {text!r}, expected {expected.text!r}"


def read_words(words):
    pictures_alone, part = False, ""
    while words and words[0].startswith("--"):
        if words[0] == "--pictures":
            pictures_alone = True
        elif words[0].startswith("--only="):
            part = words[0].partition("=")[2]
        else:
            sys.exit(f"check.py: unknown word {words[0]}")
        words = words[1:]
    if not words:
        sys.exit("usage: check.py [--pictures] [--only=PART] COMMAND WORD...")
    if shutil.which(words[0]) is None:
        sys.exit(f"check.py: no such command: {words[0]}")
    return pictures_alone, part, words


def main():
    pictures_alone, part, command = read_words(sys.argv[1:])
    rows = [row for row in read_table() if part in row.stream and not (pictures_alone and row.status != "0")]
    paths = [FOLDER / "streams" / f"{row.stream}.drc" for row in rows]
    for path in paths:
        if not path.exists():
            sys.exit(f"check.py: no such file: {path}")
    if not rows:
        sys.exit("check.py: no stream has that in its name")
    differing = 0
    with concurrent.futures.ThreadPoolExecutor(os.cpu_count()) as pool:
        for row, done in zip(rows, pool.map(lambda path: run(command, path), paths)):
            found = "; ".join(differences(row, done, pictures_alone))
            if found:
                differing += 1
                print(f"DIFFERS {row.stream}: {found}", flush=True)
    print(f"{len(rows) - differing} of {len(rows)} streams agree")
    sys.exit(1 if differing else 0)


if __name__ == "__main__":
    main()
