"""Runs the installed package over conformance/ in pieces of one size; prints what differs from the table.

run_streams.py PIECE [--arrays]     --arrays looks at the planes as numpy arrays too, and says how many
"""
import csv
import hashlib
import pathlib
import sys

import jevmutzal

CONFORMANCE = pathlib.Path(__file__).resolve().parent.parent.parent / "conformance"


def decoded(path, piece):
    """Sum, count and fault of a stream."""
    md5, count, fault = hashlib.md5(), 0, ""
    try:
        for picture in jevmutzal.decode(path, piece):
            md5.update(picture.raw())
            count += 1
    except jevmutzal.Fault as it:
        fault = f"fault unit={it.unit} at={it.at} cause={it.cause}"
    return md5.hexdigest(), count, fault


def check_arrays(path):
    """How many pictures are the same as arrays."""
    count = 0
    try:
        for picture in jevmutzal.decode(path):
            for array, plane, (width, height) in zip(picture.arrays(), picture.planes, picture.sizes()):
                assert array.shape == (height, width) and array.tobytes() == plane, path
            count += 1
    except jevmutzal.Fault:
        pass
    return count


def main():
    piece, arrays = int(sys.argv[1]), 0
    with open(CONFORMANCE / "expected.tsv", newline="") as table:
        rows = list(csv.reader(table, delimiter="\t"))[1:]
    for stream, _, pictures, md5, text in rows:
        path = CONFORMANCE / "streams" / f"{stream}.drc"
        wanted = (md5, int(pictures), text.partition("|")[2])
        found = decoded(path, piece)
        if found != wanted:
            print(f"{stream}, pieces of {piece}: {found}, expected {wanted}")
        if "--arrays" in sys.argv:
            arrays += check_arrays(path)
    if "--arrays" in sys.argv:
        print(f"{arrays} pictures as arrays")


if __name__ == "__main__":
    main()
