#!/usr/bin/env python3
"""Tries out/page.html in a headless browser: opens streams in it, and compares what it says with the table.

browse.py [--screenshot=PNG] [--stream=FILE] [--picture=N]

With --screenshot it makes a picture of the page with that stream (examples/moving.drc where none is named) open. The
browser is chromium, or what CHROMIUM names; the page is served from a port of this machine while this runs.
"""
import csv
import functools
import html
import http.server
import os
import pathlib
import re
import shutil
import subprocess
import sys
import tempfile
import threading

HERE = pathlib.Path(__file__).resolve().parent
TOP = HERE.parent.parent
CONFORMANCE = TOP / "conformance"
TRIED = "chroma_422 fields inter_444 delivery_before_a_fault fault_dc_range sequences_of_different_kinds".split()
LONGEST_RUN = 120


class Quiet(http.server.SimpleHTTPRequestHandler):
    def log_message(self, *_):
        pass


def browser():
    found = shutil.which(os.environ.get("CHROMIUM", "chromium"))
    if found is None:
        sys.exit("browse.py: there is no chromium")
    return found


def run(folder, address, *words):
    words = [browser(), "--headless=new", "--no-sandbox", "--disable-gpu", f"--user-data-dir={folder}/browser", *words]
    words += ["--virtual-time-budget=20000", address]
    done = subprocess.run(words, capture_output=True, timeout=LONGEST_RUN, stdin=subprocess.DEVNULL)
    return done.stdout.decode(errors="replace")


def text_of(page, name):
    found = re.search(rf'id="{name}"[^>]*>(.*?)</', page, re.DOTALL)
    return html.unescape(found[1]) if found else ""


def wrong_of(page, row):
    """What the page says else than the table, or None."""
    stream, _, pictures, _, text = row
    said, fault = text_of(page, "said"), text_of(page, "fault")
    if f", {pictures} pictures in " not in said:
        return f"{stream}: {said!r}, expected {pictures} pictures"
    place = re.search(r"unit=(\d+) at=(\d+) cause=(\w+)", text)
    wanted = f"Fault: {place[3]} in unit {place[1]}, at byte {place[2]}." if place else ""
    return None if fault.startswith(wanted) and bool(fault) == bool(wanted) else f"{stream}: {fault!r}, not {wanted!r}"


def main():
    words = dict(word.lstrip("-").split("=", 1) for word in sys.argv[1:] if "=" in word)
    if len(words) < len(sys.argv) - 1 or set(words) - {"screenshot", "stream", "picture"}:
        sys.exit("usage: browse.py [--screenshot=PNG] [--stream=FILE] [--picture=N]")
    with open(CONFORMANCE / "expected.tsv", newline="") as table:
        rows = [row for row in csv.reader(table, delimiter="\t") if row[0] in TRIED]
    with tempfile.TemporaryDirectory(prefix="page-") as folder:
        site = pathlib.Path(folder) / "site"
        shutil.copytree(CONFORMANCE / "streams", site)
        shutil.copy(HERE / "out" / "page.html", site)
        shutil.copy(words.get("stream", TOP / "examples" / "moving.drc"), site)
        handler = functools.partial(Quiet, directory=str(site))
        with http.server.ThreadingHTTPServer(("127.0.0.1", 0), handler) as server:
            threading.Thread(target=server.serve_forever, daemon=True).start()
            page = f"http://127.0.0.1:{server.server_port}/page.html?stream="
            if "screenshot" in words:
                name = pathlib.Path(words.get("stream", "moving.drc")).name
                address = f"{page}{name}&picture={words.get('picture', 0)}"
                picture = f"--screenshot={os.path.abspath(words['screenshot'])}"
                run(folder, address, picture, "--window-size=1160,640")
                wrong = []
            else:
                runs = [wrong_of(run(folder, f"{page}{row[0]}.drc", "--dump-dom"), row) for row in rows]
                wrong = [it for it in runs if it]
                print("\n".join([*wrong, f"{len(rows) - len(wrong)} of {len(rows)} streams"]))
            server.shutdown()
    sys.exit(1 if wrong else 0)


if __name__ == "__main__":
    main()
