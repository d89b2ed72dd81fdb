#!/usr/bin/env python3
"""Writes expected.tsv: what the plain decoder in bench/reference says of each stream of this folder.

expect.py               writes the table
expect.py --compare     writes nothing; ends with 1 where the table isn't what the plain decoder says

The plain decoder was written from docs/FORMAT.md apart from the program; the program is never asked.
"""
import hashlib
import pathlib
import sys

sys.dont_write_bytecode = True

FOLDER = pathlib.Path(__file__).resolve().parent
sys.path.insert(0, str(FOLDER.parent / "bench" / "reference"))

import decoder

TABLE = FOLDER / "expected.tsv"
HEAD = "stream\tstatus\tpictures\tmd5\ttext\n"


def row(path):
    decoded = decoder.decode(path.read_bytes())
    text = f"pictures={len(decoded.pictures)} references={decoded.most_references}"
    fault = decoded.fault
    if fault is not None:
        text += f"|fault unit={fault.unit} at={fault.place} cause={fault.cause}"
    md5 = hashlib.md5(b"".join(decoded.pictures)).hexdigest()
    return f"{path.stem}\t{0 if fault is None else 4}\t{len(decoded.pictures)}\t{md5}\t{text}\n"


def main():
    if sys.argv[1:] not in ([], ["--compare"]):
        sys.exit("usage: expect.py [--compare]")
    paths = sorted((FOLDER / "streams").glob("*.drc"))
    if not paths:
        sys.exit("expect.py: no streams; run make.py first")
    table = HEAD + "".join(map(row, paths))
    if sys.argv[1:] == []:
        TABLE.write_text(table)
    elif not TABLE.exists() or TABLE.read_text() != table:
        sys.exit("expect.py: expected.tsv isn't what the plain decoder says")
    print(f"{len(paths)} streams")


if __name__ == "__main__":
    main()
