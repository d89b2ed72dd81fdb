#!/usr/bin/env python3
"""Encodes raw pictures in parts, side by side or on many machines, and joins them. (docs/MANY.md says what comes out.)

parts.py [--by=parallel|slurm|none] [--parts=N] [--jobs=N] [--hosts=A,B] [--tries=N] [--program=PATH]
         PICTURES.yuv STREAM.drc [WORDS of encode]

Cuts the pictures where groups begin, into at most N parts (8 where it isn't given) of nearly one length, and writes two
scripts of plain commands into STREAM.drc.parts: `part N`, which encodes part N unless it stands there already, and
tries again where that fails (--tries=3), and `join`, which joins all parts to STREAM.drc. Then it runs them:

--by=parallel   with GNU parallel, --jobs=N at a time (one a processor; with --hosts one a host)
--by=slurm      as a job array, and a job that joins behind it
--by=none       not at all: `seq 0 LAST | xargs -P 4 -n 1 STREAM.drc.parts/part && STREAM.drc.parts/join`

With --hosts=A,B each part is encoded on one of these machines, by ssh, the next one at each try: its pictures go there
and its stream comes back, so the hosts need the program alone, at the same path. Slurm's machines need the same
folders. The same words make the same parts, so what was broken off goes on with the parts that are wanting.
"""
import argparse
import os
import pathlib
import re
import shlex
import subprocess
import sys

sys.dont_write_bytecode = True

from front.plain import TOP, decoder, encoder
from front.refusal import Refusal

PROGRAM = TOP / "crates" / "dirac_tool" / "out" / "dirac_tool"
# words of encode that speak of the pictures of all parts together
OF_THE_WHOLE = ["pictures", "recon"]

PART = """#!/usr/bin/env bash
# part N: encodes part N of {count}; without N the part of a task of a Slurm array
# the pictures have {total} bytes, last changed at {changed}
set -uo pipefail
part=${{1:-${{SLURM_ARRAY_TASK_ID:?which part?}}}}
cd {folder} || exit 1
file=$(printf %05d.drc "$part")
[ -e "$file" ] && exit 0
hosts=({hosts})
encode() {{
    if [ ${{#hosts[@]}} -eq 0 ]; then
        {encode}
    else
        ssh "${{hosts[$(((part + try) % ${{#hosts[@]}}))]}}" {quoted}
    fi
}}
for try in {tries}; do
    dd if={pictures} bs=1M iflag=skip_bytes,count_bytes skip=$((part * {length})) count={length} status=none |
        encode > "$file.new" && mv "$file.new" "$file" && exit 0
done
echo "part $part: not encoded" >&2
exit 1
"""

JOIN = """#!/usr/bin/env bash
# joins the {count} parts
set -euo pipefail
cd {folder}
seq -f %05.0f.drc 0 {last} | xargs cat | {program} join > joined.new
mv joined.new {stream}
"""


def settings_of(words):
    """The settings of these words of encode."""
    given = {}
    for word in words:
        found = re.fullmatch("--([a-z_]+)=(.*)", word)
        name, value = found.groups() if found else (word, "")
        if name in OF_THE_WHOLE:
            raise Refusal(f"{word}: each part would have it for itself", 2)
        if name not in dict.fromkeys(row[0] for row in encoder.SETTING_RANGES) or not value.isdigit():
            raise Refusal(f"{word}: no word of encode", 2)
        if name in given:
            raise Refusal(f"{word}: said before", 2)
        given[name] = int(value)
    settings = encoder.default_settings(given.get("base", 0)) | given
    wrong = encoder.out_of_range(settings)
    if wrong is not None:
        raise Refusal(f"bad setting {wrong}={settings[wrong]}", 2)
    return settings


def group_length(settings):
    """Bytes of a whole group of raw pictures."""
    sizes = decoder.plane_sizes(encoder.sequence_of(settings))
    picture = sum(width * height for width, height in sizes)
    return picture, picture * settings["gop"] * (1 + settings["fields"])


def cut(total, settings, parts):
    """Bytes of a part, and how many parts so many bytes of pictures are."""
    picture, group = group_length(settings)
    if total == 0 or total % picture:
        raise Refusal(f"{total} bytes are no whole raw pictures of {picture}")
    groups = decoder.divide_up(total, group)
    length = decoder.divide_up(groups, parts) * group
    return length, decoder.divide_up(total, length)


def write_script(path, text):
    path.write_text(text)
    path.chmod(0o755)


def write_scripts(folder, words, count, length):
    """Writes both scripts; parts that another script made are of no use."""
    program, pictures = shlex.quote(str(words.program)), words.pictures.stat()
    encode = f"{program} encode {shlex.join(words.words)}".rstrip()
    fields = {
        "folder": shlex.quote(str(folder)),
        "hosts": shlex.join(words.hosts),
        "encode": encode,
        "quoted": shlex.quote(encode),
        "tries": " ".join(map(str, range(words.tries))),
        "pictures": shlex.quote(str(words.pictures)),
        "length": length,
        "count": count,
        "total": pictures.st_size,
        "changed": pictures.st_mtime_ns,
    }
    part, text = folder / "part", PART.format(**fields)
    if not part.exists() or part.read_text() != text:
        for former in folder.glob("[0-9]*.drc*"):
            former.unlink()
        write_script(part, text)
    stream = shlex.quote(str(words.stream))
    write_script(folder / "join", JOIN.format(**fields, program=program, last=count - 1, stream=stream))


def run(words):
    """What a command writes; the whole ends where it fails."""
    done = subprocess.run([str(word) for word in words], stdout=subprocess.PIPE, text=True)
    if done.returncode != 0:
        raise Refusal(f"status {done.returncode} of {words[0]}; what stands is kept, so begin again")
    return done.stdout


def by_parallel(folder, count, words):
    jobs = words.jobs or len(words.hosts) or os.cpu_count()
    log = ["--joblog", folder / "log"]
    run(["parallel", "--will-cite", f"--jobs={jobs}", *log, folder / "part", "{}", ":::", *range(count)])
    run([folder / "join"])


def by_slurm(folder, count, words):
    most = f"%{words.jobs}" if words.jobs else ""
    output = f"--output={folder}/%A.%a.log"
    array = run(["sbatch", "--parsable", f"--array=0-{count - 1}{most}", output, folder / "part"])
    number = array.strip().split(";")[0]
    job = run(["sbatch", "--parsable", f"--dependency=afterok:{number}", output, folder / "join"])
    print(f"job {job.strip()} joins the parts of array {number}")


WAYS = {"parallel": by_parallel, "slurm": by_slurm, "none": lambda folder, count, words: None}


def read_words():
    parser = argparse.ArgumentParser(prog="parts.py", usage=__doc__, add_help=False, allow_abbrev=False)
    parser.add_argument("--by", choices=WAYS, default="parallel")
    parser.add_argument("--parts", type=int, default=8)
    parser.add_argument("--jobs", type=int, default=0)
    parser.add_argument("--hosts", type=lambda text: text.split(","), default=[])
    parser.add_argument("--tries", type=int, default=3)
    parser.add_argument("--program", type=pathlib.Path, default=PROGRAM)
    parser.add_argument("pictures", type=pathlib.Path)
    parser.add_argument("stream", type=pathlib.Path)
    words, others = parser.parse_known_args()
    words.words = others
    if min(words.parts, words.tries) < 1 or words.jobs < 0:
        raise Refusal("--parts and --tries are 1 at least", 2)
    for name in ("program", "pictures", "stream"):
        setattr(words, name, getattr(words, name).absolute())
    return words


def main():
    words = read_words()
    settings = settings_of(words.words)
    length, count = cut(words.pictures.stat().st_size, settings, words.parts)
    folder = words.stream.with_name(words.stream.name + ".parts")
    folder.mkdir(exist_ok=True)
    write_scripts(folder, words, count, length)
    print(f"{count} parts of at most {length // group_length(settings)[1]} groups, in {folder.name}", flush=True)
    WAYS[words.by](folder, count, words)


if __name__ == "__main__":
    try:
        main()
    except Refusal as problem:
        print(f"parts.py: {problem.text}", file=sys.stderr)
        sys.exit(problem.status)
    except OSError as problem:
        sys.exit(f"parts.py: {problem}")
