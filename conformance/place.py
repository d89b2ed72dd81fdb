#!/usr/bin/env python3
"""Puts the conformance set where the program that checks it reads it: crates/tests_conformance/data.

place.py                copies expected.tsv and the streams that it names, and takes away what else lies there

The copies aren't committed: the files of this folder are the set.
"""
import csv
import pathlib
import shutil
import sys

FOLDER = pathlib.Path(__file__).resolve().parent
TARGET = FOLDER.parent / "crates" / "tests_conformance" / "data"


def main():
    if sys.argv[1:]:
        sys.exit("usage: place.py")
    table = FOLDER / "expected.tsv"
    with open(table, newline="") as lines:
        names = [row[0] for row in list(csv.reader(lines, delimiter="\t"))[1:]]
    streams = sorted((FOLDER / "streams").glob("*.drc"))
    if sorted(names) != [path.stem for path in streams]:
        sys.exit("place.py: the streams aren't those that expected.tsv names")
    shutil.rmtree(TARGET, ignore_errors=True)
    TARGET.mkdir()
    for path in [table, *streams]:
        shutil.copyfile(path, TARGET / path.name)
    print(f"{len(streams)} streams")


if __name__ == "__main__":
    main()
