#!/usr/bin/env python3
"""The plain decoder and encoder of bench/reference under the words of dirac_tool, for tests without the proved program.

plain_tool.py list | decode | pardecode | encode [--NAME=VALUE...]      as docs/PROGRAM.md says, pardecode by no workers

Other commands are no words here.
"""
import pathlib
import re
import sys

sys.dont_write_bytecode = True
sys.path.insert(0, str(pathlib.Path(__file__).resolve().parent.parent / "bench" / "reference"))

import decoder
import encoder

FAULT, USAGE, BAD_SETTING = 4, 2, 3


def end(status, text):
    sys.stdout.buffer.flush()
    sys.stderr.write(text)
    sys.exit(status)


def end_of_fault(fault):
    if fault is not None:
        end(FAULT, f"fault unit={fault.unit} at={fault.place} cause={fault.cause}\n")


def list_units(_):
    lines, fault = decoder.list_units(sys.stdin.buffer.read())
    sys.stdout.write(lines)
    sys.stdout.flush()
    end_of_fault(fault)


def decode(_):
    decoded = decoder.decode(sys.stdin.buffer.read())
    sys.stdout.buffer.write(b"".join(decoded.pictures))
    sys.stderr.write(f"pictures={len(decoded.pictures)} references={decoded.most_references}\n")
    end_of_fault(decoded.fault)


def encode(words):
    names = [name for name, _, _ in encoder.SETTING_RANGES]
    given, recon = {}, None
    for number, word in enumerate(words, 1):
        found = re.fullmatch("--([a-z_]+)=(.*)", word)
        name, value = found.groups() if found else (None, "")
        if name == "recon":
            recon = value
        elif name in names and value.isdigit() and name not in given:
            given[name] = int(value)
        else:
            end(USAGE, f"usage: word {number}\n")
    settings = encoder.default_settings(given.get("base", 0)) | given
    wrong = encoder.out_of_range(settings)
    if wrong is not None:
        end(BAD_SETTING, f"bad setting {wrong}={settings[wrong]}\n")
    encoded = encoder.encode(settings, sys.stdin.buffer.read())
    if recon is not None:
        with open(recon, "wb") as file:
            file.write(encoded.shown)
    sys.stdout.buffer.write(encoded.stream)
    end(encoded.status, encoded.text)


def main():
    commands = {"list": list_units, "decode": decode, "pardecode": decode, "encode": encode}
    if len(sys.argv) < 2 or sys.argv[1] not in commands:
        end(USAGE, "usage: word 0\n")
    commands[sys.argv[1]](sys.argv[2:])


if __name__ == "__main__":
    main()
