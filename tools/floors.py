#!/usr/bin/env python3
"""The floors of the crates by crates.txt: the table of docs/ARCHITECTURE.md, and what a change of a crate proves anew.

floors.py               prints the table: floor, crate, what it is for
floors.py --check       compares docs/ARCHITECTURE.md with it, and ends with 1 where they differ
floors.py --write       puts it into docs/ARCHITECTURE.md
floors.py --changes     prints of each crate how many a change of it proves anew, itself among them, the most first
floors.py --unused      prints each library that a line of crates.txt lists and that no file of the crate names

A crate's floor is one more than the highest of those that it stands on. What it is for is kept in the table; where the
table lacks a crate, it is the first sentence of the crate's own comment.
"""
import argparse
import difflib
import pathlib
import re
import sys

import crate_list

DOCUMENT = "docs/ARCHITECTURE.md"
HEAD = "| Floor | Crate | What it is for |\n|---|---|---|\n"
ROW = re.compile(r"\| *\d* *\| `(\w+)` \| (.*) \|")
PARTS = ("src", "specs", "proofs")
COMMENTS = {".rt": "//", ".antt": "--"}


def rows_of(text):
    """What each crate is for, by the table of the document, in its order."""
    _, head, rest = text.partition(HEAD)
    found = {}
    for line in rest.splitlines() if head else []:
        row = ROW.fullmatch(line)
        if not row:
            break
        found[row[1]] = row[2]
    return found


def first_sentence(top, name):
    """The first sentence of the comment that a crate's root file begins with."""
    for file in ("lib.rt", "main.rt"):
        path = pathlib.Path(top) / "crates" / name / "src" / file
        lines = path.read_text(encoding="utf-8").splitlines() if path.is_file() else []
        comment = " ".join(line[3:].strip() for line in lines if line.startswith("//!"))
        if comment:
            return re.match(r".*?\.(?= |$)|.*", comment)[0]
    return ""


def table(top):
    """The table as it is to be, the highest floor first and in each floor in the order that the document has."""
    crates = crate_list.read_crates(top)
    floors = crate_list.floors(crates)
    kept = rows_of((pathlib.Path(top) / DOCUMENT).read_text(encoding="utf-8"))
    order = [*[name for name in kept if name in crates], *[name for name in crates if name not in kept]]
    lines, before = [], None
    for name in sorted(order, key=lambda one: -floors[one]):
        shown = "" if floors[name] == before else f"{floors[name]} "
        lines.append(f"| {shown}| `{name}` | {kept.get(name) or first_sentence(top, name)} |\n")
        before = floors[name]
    return HEAD + "".join(lines)


def parts_of(text):
    """What stands before the table of the document, the table, and what stands behind it."""
    before, head, rest = text.partition(HEAD)
    if not head:
        raise ValueError(f"{DOCUMENT} has no table that begins with {HEAD.splitlines()[0]}")
    rows = []
    for line in rest.splitlines(keepends=True):
        if not line.startswith("|"):
            break
        rows.append(line)
    return before, head + "".join(rows), rest[len("".join(rows)) :]


def differences(top):
    """The lines in which the document's table and the computed one differ."""
    _, found, _ = parts_of((pathlib.Path(top) / DOCUMENT).read_text(encoding="utf-8"))
    wanted = table(top)
    named = f"{DOCUMENT}", "by crates.txt"
    return list(difflib.unified_diff(found.splitlines(), wanted.splitlines(), *named, lineterm="", n=0))


def write(top):
    path = pathlib.Path(top) / DOCUMENT
    before, _, behind = parts_of(path.read_text(encoding="utf-8"))
    path.write_text(before + table(top) + behind, encoding="utf-8")


def changes(crates):
    """Of each crate how many a change of it proves anew, itself among them, the most first."""
    all_below = {name: crate_list.below(crates, name) for name in crates}
    counts = {name: 1 + sum(name in below for below in all_below.values()) for name in crates}
    return sorted(counts.items(), key=lambda pair: -pair[1])


def names_in(top, name):
    """All words of a crate's files, without their comments."""
    crate, words = pathlib.Path(top) / "crates" / name, set()
    for path in [path for part in PARTS for path in crate.glob(f"{part}/**/*") if path.suffix in COMMENTS]:
        lines = path.read_text(encoding="utf-8").splitlines()
        words.update(word for line in lines for word in re.findall(r"\w+", line.partition(COMMENTS[path.suffix])[0]))
    return words


def unused(top):
    """Each crate with a library that its line lists and that none of its files names."""
    crates = crate_list.read_crates(top)
    named = {name: names_in(top, name) for name in crates}
    return [(name, library) for name in crates for library in crates[name] if library not in named[name]]


def main():
    reader = argparse.ArgumentParser(description=__doc__, formatter_class=argparse.RawDescriptionHelpFormatter)
    group = reader.add_mutually_exclusive_group()
    for word in ("check", "write", "changes", "unused"):
        group.add_argument(f"--{word}", action="store_true")
    words = reader.parse_args()
    top = crate_list.TOP
    if words.check:
        found = differences(top)
        print(*found, sep="\n", end="\n" if found else "")
        print(f"{DOCUMENT}: {'python3 tools/floors.py --write puts it right' if found else 'as crates.txt'}")
        sys.exit(1 if found else 0)
    if words.write:
        write(top)
    elif words.changes:
        for name, count in changes(crate_list.read_crates(top)):
            print(f"{name}: {count}")
    elif words.unused:
        found = unused(top)
        for name, library in found:
            print(f"{name}: no file names {library}")
        print(f"{len(found)} unused")
        sys.exit(1 if found else 0)
    else:
        print(table(top), end="")


if __name__ == "__main__":
    main()
