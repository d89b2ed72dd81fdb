#!/usr/bin/env python3
"""Tries the edits of crates/NAME/more-edits/, which the gate doesn't read, and looks at the form of all edits.

more_edits.py CRATE...          tries the edits of these crates, or of all at the word all, as the gate tries those of
                                must-fail/, and tells each result
more_edits.py --list [CRATE...] names them
more_edits.py --check           reads the edits of must-fail/ and more-edits/ of all crates, in a second, by itself

An edit is a file NAME.edit: a line `file: src/FILE`, and then pairs of lines `old: TEXT` and `new: TEXT`, each of which
changes what the pairs before it left. The prover must refuse the crate with the edit. Wrong is one that can't be
applied, as its file isn't there or an `old:` text doesn't stand there exactly once, and one that changes a definition
or a proof, since that shows nothing of what the code's contracts hold.

The crates and all that they stand on are proved first, in a folder below ${XDG_CACHE_HOME:-~/.cache}, as build.py does;
broken off and begun again that goes on with the crates that weren't proved. Ends with 1 where an edit isn't refused or
is wrong.
"""
import argparse
import collections
import pathlib
import re
import shutil
import sys

import crate_list
import proving

TRIED, READ = "more-edits", ("must-fail", "more-edits")
# An edit costs about a third of its crate's proof.
EDITS_OF_A_PROOF = 3
NAME = re.compile(r"[A-Za-z0-9_-][A-Za-z0-9_.-]*\.edit")

# one line of an edit: which of its three kinds, and its text
Line = collections.namedtuple("Line", "kind text")


def edits_of(top, name, folder):
    return sorted((pathlib.Path(top) / "crates" / name / folder).glob("*.edit"))


def lines_of(edit):
    """The lines of an edit, or a ValueError that says which isn't one."""
    found = []
    for number, line in enumerate(edit.read_text(encoding="utf-8").split("\n"), 1):
        kind, _, text = line.partition(":")
        if not line:
            continue
        if kind not in ("file", "old", "new") or text[:1] not in (" ", "" if kind == "new" else " "):
            raise ValueError(f"line {number} begins with none of 'file: ', 'old: ' and 'new: '")
        found.append(Line(kind, text[1:]))
    return found


def text_of(crate, path):
    """The text that an edit of this file changes, or a ValueError that says why it may not."""
    if path.startswith(("specs/", "proofs/")):
        raise ValueError(f"it changes {path}, a definition or a proof, and so shows nothing of the code")
    if not path.startswith("src/") or pathlib.PurePosixPath(path).as_posix() != path or ".." in path.split("/"):
        raise ValueError(f"{path} is no file below src/")
    if not (crate / path).is_file():
        raise ValueError(f"there is no file {path}")
    return (crate / path).read_text(encoding="utf-8")


def changed(edit, crate):
    """What the files of the crate become that the edit changes, or a ValueError that says why it can't be applied."""
    path, old, texts, pairs = None, None, {}, 0
    for line in lines_of(edit):
        if line.kind == "new" and old is None:
            raise ValueError("a new: line has no old: line before it")
        if line.kind != "new" and old is not None:
            raise ValueError("an old: line has no new: line behind it")
        if line.kind == "file":
            path = line.text.strip()
            texts.setdefault(path, text_of(crate, path))
        elif path is None:
            raise ValueError("an old: line stands before any file: line")
        elif line.kind == "old":
            old, count = line.text, texts[path].count(line.text) if line.text else 0
            if count != 1:
                raise ValueError(f"in {path} an old: text stands {count} times, and not once")
        else:
            texts[path], old, pairs = texts[path].replace(old, line.text), None, pairs + 1
    if old is not None or not pairs:
        raise ValueError("an old: line has no new: line behind it" if old is not None else "it changes nothing")
    if all((crate / path).read_text(encoding="utf-8") == text for path, text in texts.items()):
        raise ValueError("its old: and new: texts are equal")
    return texts


def check(top):
    """What is wrong with the edits of the repository, a line each, and how many there are."""
    wrong, count = [], 0
    for name in crate_list.read_crates(top):
        crate, seen = pathlib.Path(top) / "crates" / name, {}
        for path in [path for folder in READ for path in sorted((crate / folder).glob("**/*"))]:
            short = path.relative_to(top).as_posix()
            if path.suffix == ".md" or path.is_dir():
                continue
            count += 1
            if not NAME.fullmatch(path.name) or path.parent.parent != crate:
                wrong.append(f"{short}: an edit stands right in its folder, and its name ends in .edit")
                continue
            try:
                texts = changed(path, crate)
            except (ValueError, OSError) as error:
                wrong.append(f"{short}: {error}")
                continue
            same = seen.setdefault(repr(sorted(texts.items())), short)
            if same != short:
                wrong.append(f"{short}: the same edit as {same}")
    return wrong, count


class Trial(proving.Proving):
    """What tries the edits of some crates."""

    def __init__(self, top, names):
        folder = proving.cache_folder(top, "edits")
        super().__init__(top, names, "edits", folder.with_suffix(".log"))
        self.who, self.refused, self.not_refused = "more_edits", 0, 0
        self.untried = {name: len(edits_of(top, name, TRIED)) for name in names}
        self.count = sum(self.untried.values())
        self.waits.update((f"{name} edits", [*self.waits[name], name]) for name in names)

    def costs_left(self):
        edits = {f"{name} edits": count * self.costs[name] / EDITS_OF_A_PROOF for name, count in self.untried.items()}
        return {**super().costs_left(), **{task: cost for task, cost in edits.items() if cost}}

    def done(self):
        return f"{self.refused + self.not_refused} of {proving.plural(self.count, 'edit')} tried, {super().done()}"

    def take(self, line, block):
        edit = re.match(r"rt: must-fail (\w+)/", line)
        if not edit:
            return super().take(line, block)
        is_refused = ": refused, as it must be" in line
        self.refused, self.not_refused = self.refused + is_refused, self.not_refused + (not is_refused)
        self.untried[edit[1]] -= 1
        return print(line[4:].rstrip("\n"), flush=True)

    def run_all(self):
        """Tries all edits; whether each is refused."""
        self.folder.mkdir(parents=True, exist_ok=True)
        self.prepare()
        for name in self.untried:
            folder = self.folder / "crates" / name
            shutil.copytree(self.top / "crates" / name / TRIED, folder / "must-fail")
        edits, crates = proving.plural(self.count, "edit"), proving.plural(len(self.names), "crate")
        self.tell(f"{edits} to try, over {crates} to prove")
        status = self.prove(self.untried)
        untried = self.count - self.refused - self.not_refused
        print(f"{self.refused} refused, {self.not_refused} not, {untried} not tried")
        is_well = not status and self.refused == self.count
        if untried:
            print("".join(self.failures or self.tail()), file=sys.stderr)
        if is_well:
            self.log.unlink()
        else:
            self.tell(f"not all are refused; the whole log is {self.log}")
        self.remove_folder()
        return is_well


def main():
    crates = crate_list.read_crates()
    reader = argparse.ArgumentParser(description=__doc__, formatter_class=argparse.RawDescriptionHelpFormatter)
    reader.add_argument("--check", action="store_true")
    reader.add_argument("--list", action="store_true")
    reader.add_argument("crates", nargs="*", metavar="CRATE")
    words = reader.parse_args()
    unknown = [name for name in words.crates if name not in crates and name != "all"]
    if unknown:
        reader.error(f"no crate {unknown[0]} in crates.txt")
    if words.check:
        wrong, count = check(crate_list.TOP)
        print(*wrong, f"{count} edits, {len(wrong)} wrong", sep="\n")
        sys.exit(1 if wrong else 0)
    is_all = "all" in words.crates or words.list and not words.crates
    names = [name for name in crates if is_all or name in words.crates]
    names = [name for name in names if edits_of(crate_list.TOP, name, TRIED)]
    if words.list:
        for path in [path for name in names for path in edits_of(crate_list.TOP, name, TRIED)]:
            print(path.relative_to(crate_list.TOP))
        return
    if not words.crates:
        reader.error("say which crates, or all")
    if not names:
        print("no edits to try")
        return
    if not shutil.which("rt"):
        reader.error("no command rt: the toolchain isn't there")
    trial = Trial(crate_list.TOP, names)
    with trial.alone():
        sys.exit(0 if trial.run_all() else 1)


if __name__ == "__main__":
    main()
