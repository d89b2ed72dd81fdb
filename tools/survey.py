#!/usr/bin/env python3
"""Counts what this repository holds itself to, and tells the places.

survey.py [--short]

- Code in identical runs of six lines, of the sources without tests: below 5 % of the lines is wanted. Lines that import
  or declare modules, comments and blank lines don't count.
- Functions with more than seven parameters, `self` among them: more are a struct.
- Names of definitions (specs/) that stand in several crates: one rule stands in one place.

--short prints the three numbers alone. Always ends with 0: a number here is a place to look at, and no verdict.
"""
import argparse
import collections
import itertools
import pathlib
import re
import signal

import crate_list

RUN = 6
MOST_PARAMETERS = 7
NO_CODE = ("//", "use ", "ghost use ", "pub use ", "mod ", "pub mod ")
MODIFIERS = {"pub", "abbrev", "unfoldable", "opaque", "data", "record"}

# a line of code: its number in the file, and its text without what it is set in by
Line = collections.namedtuple("Line", "number text")


def sources(top):
    """The files of all crates but those of tests and examples, without tests, by their path in the repository."""
    top = pathlib.Path(top)
    for name in crate_list.read_crates(top):
        texts = {path: path.read_text(encoding="utf-8") for path in sorted(top.glob(f"crates/{name}/src/**/*.rt"))}
        tests = {one for text in texts.values() for one in re.findall(r"#\[cfg\(test\)\]\s*mod (\w+);", text)}
        for path, text in texts.items():
            if not name.startswith("tests_") and name != "library_use" and path.stem not in tests:
                yield path.relative_to(top).as_posix(), text


def code_lines(text):
    lines = [Line(number, line.strip()) for number, line in enumerate(text.splitlines(), 1)]
    return [line for line in lines if line.text and not line.text.startswith(NO_CODE)]


def spans(numbers):
    """Numbers as their runs, such as 3-5, 9."""
    groups = itertools.groupby(enumerate(sorted(numbers)), key=lambda pair: pair[1] - pair[0])
    runs = [[number for _, number in group] for _, group in groups]
    return ", ".join(f"{run[0]}-{run[-1]}" if len(run) > 1 else str(run[0]) for run in runs)


def repeated(files):
    """Which lines of each file stand in a run of six that another place has too, and how many lines there are."""
    lines = {path: code_lines(text) for path, text in files.items()}
    places = collections.defaultdict(list)
    for path, kept in lines.items():
        for at in range(len(kept) - RUN + 1):
            places[tuple(line.text for line in kept[at : at + RUN])].append((path, at))
    marked = collections.defaultdict(set)
    for found in places.values():
        for path, at in found if len(found) > 1 else []:
            marked[path].update(range(at, at + RUN))
    numbers = {path: {lines[path][at].number for at in ats} for path, ats in marked.items()}
    return numbers, sum(map(len, lines.values()))


def behind_brackets(text, at, opening, closing):
    """The place behind the bracket that closes the one at this place; `->` closes none."""
    depth = 0
    for place in range(at, len(text)):
        if text[place] == opening:
            depth += 1
        elif text[place] == closing and text[place - 1] != "-":
            depth -= 1
            if not depth:
                return place + 1
    return len(text)


def parameters(text):
    """How many parameters a list of them has, in its brackets."""
    depth, found, is_word = 0, 0, False
    for place, sign in enumerate(text[1:-1], 1):
        depth += (sign in "([{<") - (sign in ")]}>" and text[place - 1] not in "-=")
        if sign == "," and not depth:
            found, is_word = found + is_word, False
        elif not sign.isspace():
            is_word = True
    return found + is_word


def functions(text):
    """Each function: the number of its line, its name, and how many parameters it has."""
    text = re.sub(r"//[^\n]*", lambda comment: " " * len(comment[0]), text)
    for head in re.finditer(r"\bfn\s+(\w+)\s*", text):
        at = head.end()
        if text[at : at + 1] == "<":
            at = behind_brackets(text, at, "<", ">")
        at += len(text[at:]) - len(text[at:].lstrip())
        if text[at : at + 1] == "(":
            listed = text[at : behind_brackets(text, at, "(", ")")]
            yield text.count("\n", 0, head.start()) + 1, head[1], parameters(listed)


def definitions(text):
    """The names that a file of specs/ defines, each with the number of its line."""
    for number, line in enumerate(text.splitlines(), 1):
        words = line.split()
        if not words or line[0].isspace() or line.startswith("--") or "use" in words[:2] or "mod" in words[:2]:
            continue
        modifiers = list(itertools.takewhile(MODIFIERS.__contains__, words))
        rest = words[len(modifiers) :]
        has_type = re.match(r"\s*((\([^()]*\)|\{[^{}]*\})\s*)*:(\s|$)", line.partition(rest[0])[2]) if rest else None
        if rest and (has_type or {"data", "record"} & set(modifiers)):
            yield number, rest[0]


def shared_names(top):
    """The places of each name that specs/ of several crates define."""
    places = collections.defaultdict(list)
    for name in crate_list.read_crates(top):
        for path in sorted(pathlib.Path(top).glob(f"crates/{name}/specs/**/*.antt")):
            for number, defined in definitions(path.read_text(encoding="utf-8")):
                places[defined].append((name, f"{path.relative_to(top).as_posix()}:{number}"))
    several = {one: found for one, found in places.items() if len({name for name, _ in found}) > 1}
    return {one: [place for _, place in found] for one, found in sorted(several.items())}


def main():
    signal.signal(signal.SIGPIPE, signal.SIG_DFL)
    reader = argparse.ArgumentParser(description=__doc__, formatter_class=argparse.RawDescriptionHelpFormatter)
    reader.add_argument("--short", action="store_true")
    is_short, top = reader.parse_args().short, crate_list.TOP
    files = dict(sources(top))
    numbers, total = repeated(files)
    count = sum(map(len, numbers.values()))
    share = f"{100 * count / max(total, 1):.1f} %"
    print(f"{share} of {total} lines of code stand in runs of {RUN} lines that stand elsewhere too")
    for path in sorted(numbers, key=lambda path: -len(numbers[path])) if not is_short else []:
        print(f"  {path}: {len(numbers[path])} lines: {spans(numbers[path])}")
    wide = [(path, *one) for path, text in files.items() for one in functions(text) if one[2] > MOST_PARAMETERS]
    print(f"{len(wide)} functions have more than {MOST_PARAMETERS} parameters")
    for path, number, name, parameter_count in sorted(wide, key=lambda one: -one[3]) if not is_short else []:
        print(f"  {path}:{number}: {name} has {parameter_count}")
    names = shared_names(top)
    print(f"{len(names)} names of definitions stand in several crates")
    for name, places in names.items() if not is_short else []:
        print(f"  {name}: {', '.join(places)}")


if __name__ == "__main__":
    main()
