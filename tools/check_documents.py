#!/usr/bin/env python3
"""Runs the command lines of documents as they stand, and compares what they write with what the documents say.

check_documents.py [DOCUMENT...]        README.md, docs/*.md and the README.md of bench, conformance and examples where
                                        none is given

Run it with ffmpeg and mkvmerge there and the program built: where it isn't, it says so and runs nothing, since `./run`
would prove the program first. The files that the commands write at the top of the repository are ignored by git. In a
block of lines those that begin with `$ ` are commands, and what follows one is what it writes to
both outputs, in any order. In a block without such a line, those that begin with python3, ./run, ./dirac or bench/ are
commands, of which only the status is looked at, and 1 is fine with `--pictures`, where another decoder may differ.
Commands with ffplay or `play` are left out, for want of a screen, and those with capi/ where the library isn't built
(`make -C capi`), since they would prove it first. A clip that a document takes for granted is made by
ffmpeg. Of a container that a command writes the times are looked at by ffprobe: its packets come one after another,
evenly, and it lasts as long. Ends with 1 where a command differs.
"""
import os
import pathlib
import re
import shutil
import subprocess
import sys

TOP = pathlib.Path(__file__).resolve().parent.parent
CLIP = TOP / "clip.mp4"
LIBRARY = TOP / "capi" / "out" / "libjevmutzal.a"
CONTAINER = re.compile(r"(?:^|[\s>])(\w+\.(?:mkv|mp4|avi|mov))(?=$|\s)")
# the most that a container rounds a time by, in seconds, and how many pictures its duration may be off
ROUNDED, SPARE = 0.002, 1.5


def is_built(top):
    """Whether `./run` runs the program as it is: it is there, and no source is newer."""
    program = top / "crates" / "dirac_tool" / "out" / "dirac_tool"
    if not program.is_file():
        return False
    sources = [top / "crates.txt"]
    for folder, folders, names in os.walk(top / "crates"):
        folders[:] = [name for name in folders if name != "out"]
        sources += [pathlib.Path(folder, name) for name in names]
    return all(path.stat().st_mtime <= program.stat().st_mtime for path in sources)


def blocks(text):
    return re.findall(r"^```\n(.*?)^```$", text, re.DOTALL | re.MULTILINE)


def commands(block):
    """Each command, and the lines that it is to write, or None where the block doesn't say."""
    lines = block.splitlines()
    if not any(line.startswith("$ ") for line in lines):
        return [(line, None) for line in lines if re.match(r"python3 |\./run |\./dirac |bench/", line)]
    found = []
    for line in lines:
        if line.startswith("$ "):
            found.append((line[2:], []))
        elif found and found[-1][0].endswith("\\"):
            found[-1] = (f"{found[-1][0]}\n{line}", [])
        elif found:
            found[-1][1].append(line)
    return found


def written_container(command):
    """The container that a command writes: the last word, or what stands behind -o; None where there is none."""
    words = command.split()
    named = [words[n + 1] for n, word in enumerate(words[:-1]) if word in ("-o", ">")] or words[-1:]
    return next((name for name in named if CONTAINER.fullmatch(name)), None)


def asked_about(command):
    """The file about which ffmpeg would ask whether to write over it, or None."""
    target = command.split()[-1]
    is_written = command.startswith("ffmpeg ") and "|" not in command and re.fullmatch(r"\w+\.\w+", target)
    return target if is_written else None


def wrong_times(times, duration):
    """What is wrong with the times of a container's packets, or None."""
    if len(times) < 2:
        return None
    times = sorted(times)
    step = (times[-1] - times[0]) / (len(times) - 1)
    if step <= ROUNDED:
        return f"{len(times)} packets have one time"
    if any(abs(later - time - step) > ROUNDED for time, later in zip(times, times[1:])):
        return f"the times of the packets aren't {step:.3f} s apart"
    if abs(duration - len(times) * step) > SPARE * step:
        return f"its pictures last {len(times) * step:.3f} s, and it says {duration:.3f} s"
    return None


def wrong_container(name):
    """What ffprobe finds wrong with a container of pictures alone, or None."""
    words = ["ffprobe", "-v", "error", "-select_streams", "v:0", "-of", "csv=p=0"]
    told = [
        subprocess.run([*words, "-show_entries", entries, name], cwd=TOP, capture_output=True, text=True).stdout
        for entries in ("packet=pts_time", "format=duration")
    ]
    times, duration = ([float(time) for time in re.findall(r"[0-9.]+", text)] for text in told)
    return wrong_times(times, duration[0]) if duration else "ffprobe tells no duration"


def difference(command, expected):
    """What differs, or None."""
    container = written_container(command)
    for name in {container, asked_about(command)} - {None}:
        (TOP / name).unlink(missing_ok=True)
    done = subprocess.run(["bash", "-c", command], cwd=TOP, stdin=subprocess.DEVNULL, capture_output=True)
    lines = (done.stdout + done.stderr).decode(errors="replace").splitlines()
    if container and (TOP / container).exists() and shutil.which("ffprobe"):
        wrong = wrong_container(container)
        if wrong:
            return f"{container}: {wrong}"
    if expected is None:
        is_good = done.returncode == 0 or (done.returncode == 1 and "--pictures" in command)
        return None if is_good else f"status {done.returncode}"
    return None if sorted(lines) == sorted(expected) else f"wrote {lines[:5]}, expected {expected[:5]}"


def is_left_out(command, has_library):
    """Whether a command wants a screen, or the library where it isn't built."""
    return "ffplay" in command or "dirac play" in command or ("capi/" in command and not has_library)


def main():
    if not is_built(TOP):
        sys.exit("check_documents.py: the program isn't built of this text: `./run list < /dev/null` builds it")
    folders = [TOP, TOP / "docs", TOP / "bench", TOP / "conformance", TOP / "examples"]
    paths = [pathlib.Path(word) for word in sys.argv[1:]]
    paths = paths or [path for folder in folders for path in sorted(folder.glob("*.md"))]
    if not CLIP.exists():
        words = ["ffmpeg", "-v", "error", "-f", "lavfi", "-i", "testsrc=size=320x240:rate=25:duration=1", str(CLIP)]
        subprocess.run(words, check=True)
    count, differing, left_out = 0, 0, 0
    for path in paths:
        for command, expected in [one for block in blocks(path.read_text()) for one in commands(block)]:
            if is_left_out(command, LIBRARY.exists()):
                left_out += 1
                continue
            count += 1
            found = difference(command, expected)
            if found:
                differing += 1
                print(f"DIFFERS {path.name}: {command}: {found}", flush=True)
    print(f"{count - differing} of {count} command lines write what the documents say, {left_out} were left out")
    sys.exit(1 if differing else 0)


if __name__ == "__main__":
    try:
        main()
    except (OSError, subprocess.CalledProcessError) as error:
        sys.exit(f"check_documents.py: {error}")
