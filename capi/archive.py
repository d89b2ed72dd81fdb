#!/usr/bin/env python3
"""Proves the crate jevmutzal and what it stands on, and makes its archive: crates/jevmutzal/out/libjevmutzal.a.

archive.py                      makes it
archive.py --module=FILE        makes it, and FILE gets the LLVM module that it is compiled of
archive.py --sources            prints the files that it is made of

It works on a copy of the crates below ${XDG_CACHE_HOME:-~/.cache}, where `rt ci` proves them, without their must-fail
edits. What the gate proved of the same files on this machine `rt ci` takes as proved, so that behind a run of the gate
little is left to do, and broken off it goes on with the crates that weren't proved. `rt ci` only checks a static
library; so then rt's own step of `rt lib` compiles the archive, over what was proved there. The folder is removed once
the archive is there.
"""
import importlib.util
import os
import pathlib
import shutil
import sys

CAPI = pathlib.Path(__file__).resolve().parent
sys.path.insert(0, str(CAPI.parent / "tools"))
sys.dont_write_bytecode = True

import crate_list
import proving

NAME = "jevmutzal"
PARTS = ("src", "specs", "proofs")
# What stands in place of clang: it keeps the module that it is given, and goes on as clang.
KEEPER = """#!/bin/sh
for word in "$@"; do
    case "$word" in *.bc | *.ll) cp "$word" '{kept}' ;; esac
done
exec '{clang}' "$@"
"""


def fail(text):
    print(f"archive.py: {text}", file=sys.stderr)
    sys.exit(1)


def kit_of_rt():
    return pathlib.Path(os.path.realpath(shutil.which("rt"))).parent.parent


def load_rt_library():
    """What rt stands on, as a module."""
    spec = importlib.util.spec_from_file_location("rtlib", kit_of_rt() / "bin" / "rtlib.py")
    module = importlib.util.module_from_spec(spec)
    spec.loader.exec_module(module)
    return module


def make_keeper(folder, kept):
    """A folder of the kit's tools with a clang that keeps the module that it is given."""
    tools = kit_of_rt() / "toolchain"
    shutil.rmtree(folder, ignore_errors=True)
    (folder / "bin").mkdir(parents=True)
    (folder / "lib").symlink_to(tools / "lib")
    for tool in (tools / "bin").iterdir():
        if tool.name != "clang":
            (folder / "bin" / tool.name).symlink_to(tool)
    clang = folder / "bin" / "clang"
    clang.write_text(KEEPER.format(kept=kept, clang=tools / "bin" / "clang"))
    clang.chmod(0o755)
    return folder


def keep_module(crate, folder, kept):
    """Has a crate's next build call the clang that keeps the module."""
    tools, call = make_keeper(folder, kept), crate.call

    def call_keeper(*words):
        words = list(words)
        if "--toolchain" in words:
            words[words.index("--toolchain") + 1] = str(tools)
        return call(*words)

    crate.call = call_keeper


class Archive(proving.Proving):
    def __init__(self, top, name):
        self.name, self.out = name, top / "crates" / name / "out"
        super().__init__(top, [name], name, self.out / "archive.log")
        self.who = "archive"

    def compile(self, module):
        """Compiles the proved crate in the folder into its archive; the status."""
        library = load_rt_library()
        # as in rt ci: the crates above a library load its statements alone
        library.Crate.cuts_libraries = True
        library.guarded()
        (crate,) = [one for one in library.crates_below(str(self.folder)) if one.name == self.name]
        crate.out = sys.stderr
        os.makedirs(f"{crate.folder}/out", exist_ok=True)
        if module:
            keep_module(crate, self.folder / "tools", module)
        return crate.build_static(["--jobs", "2"])

    def build(self, module):
        self.prepare()
        self.tell(f"{proving.plural(len(self.names), 'crate')} to prove, or to take as the gate proved them")
        if self.run(["rt", "ci"], "w"):
            print("".join(self.failures or self.tail()), file=sys.stderr)
            fail(f"not built; the whole log is {self.log}")
        os.chdir(self.folder)
        self.tell("the archive is compiled")
        if self.compile(module):
            fail("the archive wasn't compiled: the lines above say why")
        made = self.folder / "crates" / self.name / "out" / f"lib{self.name}.a"
        shutil.copy(made, self.out / f"{made.name}.part")
        os.replace(self.out / f"{made.name}.part", self.out / made.name)
        os.chdir(self.top)
        self.remove_folder()


def sources(top, name):
    crates = crate_list.read_crates(top)
    yield top / "crates.txt"
    for one in [*crate_list.below(crates, name), name]:
        for part in PARTS:
            yield from sorted(path for path in (top / "crates" / one / part).rglob("*") if path.is_file())


def main(top=crate_list.TOP, name=NAME):
    words = sys.argv[1:]
    if len(words) > 1 or (words and words[0] != "--sources" and not words[0].startswith("--module=")):
        sys.exit("usage: archive.py [--module=FILE | --sources]")
    if name not in crate_list.read_crates(top):
        fail(f"no crate {name} in crates.txt")
    if words == ["--sources"]:
        return print("\n".join(map(str, sources(top, name))))
    if not shutil.which("rt"):
        fail("no command rt: the toolchain isn't there")
    module = os.path.abspath(words[0].partition("=")[2]) if words else None
    archive = Archive(top, name)
    archive.out.mkdir(parents=True, exist_ok=True)
    with archive.alone():
        archive.build(module)
    return None


if __name__ == "__main__":
    main()
