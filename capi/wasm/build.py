#!/usr/bin/env python3
"""Compiles the decoder's module for WebAssembly: out/jevmutzal.wasm, and out/page.html with all of it in one file.

build.py [--module=FILE]    FILE is an LLVM module, as text or bitcode, in place of that of crates/jevmutzal

The source is proved; this way of compiling it is not the kit's, and no gate runs it. ../archive.py proves and compiles
the crate, with a clang that keeps the module that it is given. The module's text is given the target wasm64 in place of
x86-64, compiled by the kit's clang with heap.c, and linked by the kit's lld. (The kit's own way to wasm64 refuses a
crate that takes memory from the C library.)
"""
import base64
import os
import pathlib
import re
import shutil
import subprocess
import sys
import tempfile

HERE = pathlib.Path(__file__).resolve().parent
OUT = HERE / "out"
TRIPLE = "wasm64-unknown-unknown"
# LLVM's words for wasm64: little-endian, pointers of 64 bits
LAYOUT = "e-m:e-p:64:64-p10:8:8-p20:8:8-i64:64-i128:128-n32:64-S128-ni:1:10:20"
EXPORTED = "jev_alloc jev_free"


def find_kit():
    path = shutil.which("rt")
    if path is None:
        sys.exit("build.py: there is no rt")
    return pathlib.Path(os.path.realpath(path)).parent.parent


def module_of_crate(folder):
    """The module that the proved archive is compiled of."""
    module = folder / "module.bc"
    if subprocess.run([sys.executable, HERE.parent / "archive.py", f"--module={module}"]).returncode:
        sys.exit(1)
    return module


def as_text(clang, module, folder):
    if module.suffix == ".ll":
        return module.read_text()
    path = folder / "module.ll"
    subprocess.run([clang, "-S", "-emit-llvm", "-x", "ir", module, "-o", path], check=True)
    return path.read_text()


def retargeted(text):
    """The module's text for wasm64."""
    text = re.sub(r'^target datalayout = ".*"$', f'target datalayout = "{LAYOUT}"', text, flags=re.MULTILINE)
    text = re.sub(r'^target triple = ".*"$', f'target triple = "{TRIPLE}"', text, flags=re.MULTILINE)
    # what is of x86-64 or its stack; a group that is empty then has no form
    words = "target-cpu|target-features|tune-cpu|probe-stack|stack-probe-size|frame-pointer"
    text = re.sub(rf' "(?:{words})"="[^"]*"', "", text).replace(" sanitize_address", "")
    return re.sub(r"^(attributes #\d+ = \{) *\}$", r'\1 "of"="module" }', text, flags=re.MULTILINE)


def exported_names():
    header = (HERE.parent / "include" / "jevmutzal.h").read_text()
    return re.findall(r"^\w.* (jev_\w+)\(", header, re.MULTILINE) + EXPORTED.split()


def link(kit, folder, text):
    tools, objects = kit / "toolchain" / "bin", []
    (folder / "module_wasm.ll").write_text(text)
    linker = folder / "wasm-ld"
    linker.symlink_to(tools / "ld.lld")
    target = [f"--target={TRIPLE}", "-O3", "-mbulk-memory", "-mllvm", "-expand-div-rem-bits=64"]
    for kind, source in (("ir", folder / "module_wasm.ll"), ("c", HERE / "heap.c")):
        made = folder / f"{source.stem}.o"
        free = ["-ffreestanding", "-fno-builtin", "-nostdinc"] if kind == "c" else ["-Wno-override-module"]
        subprocess.run([tools / "clang", *target, *free, "-x", kind, "-c", source, "-o", made], check=True)
        objects.append(made)
    exports = [f"--export={name}" for name in exported_names()]
    words = ["-mwasm64", "--no-entry", "--gc-sections", "--strip-all", "-z", "stack-size=1048576", "--stack-first"]
    OUT.mkdir(exist_ok=True)
    subprocess.run([linker, *words, *exports, *objects, "-o", OUT / "jevmutzal.wasm"], check=True)


def write_page():
    """page.html with its script and the module in it, which opens without a server."""
    page, script = (HERE / "page.html").read_text(), (HERE / "decoder.js").read_text()
    module = base64.b64encode((OUT / "jevmutzal.wasm").read_bytes()).decode()
    inlined = f'<script type="text/plain" id="module">{module}</script>\n<script>\n{script}</script>'
    (OUT / "page.html").write_text(page.replace('<script src="decoder.js"></script>', inlined))


def main():
    words = sys.argv[1:]
    if len(words) > 1 or (words and not words[0].startswith("--module=")):
        sys.exit("usage: build.py [--module=FILE]")
    kit = find_kit()
    with tempfile.TemporaryDirectory(prefix="wasm-") as name:
        folder = pathlib.Path(name)
        module = pathlib.Path(words[0].partition("=")[2]).resolve() if words else module_of_crate(folder)
        link(kit, folder, retargeted(as_text(kit / "toolchain" / "bin" / "clang", module, folder)))
    write_page()
    path = OUT / "jevmutzal.wasm"
    print(f"{path.relative_to(HERE.parent.parent)}: {path.stat().st_size} bytes")


if __name__ == "__main__":
    main()
