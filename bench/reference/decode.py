#!/usr/bin/env python3
"""The plain decoder as a command, which answers as `dirac_tool decode` does.

decode.py < STREAM      writes the raw pictures up to the first fault, and behind them, to standard error, the line
                        pictures=N references=M; at a fault it ends with 4 and the fault's line
"""
import sys

sys.dont_write_bytecode = True

import decoder

FAULT = 4


def main():
    if len(sys.argv) != 1:
        sys.exit("usage: decode.py < STREAM")
    decoded = decoder.decode(sys.stdin.buffer.read())
    for picture in decoded.pictures:
        sys.stdout.buffer.write(picture)
    sys.stdout.buffer.flush()
    print(f"pictures={len(decoded.pictures)} references={decoded.most_references}", file=sys.stderr)
    if decoded.fault is not None:
        fault = decoded.fault
        print(f"fault unit={fault.unit} at={fault.place} cause={fault.cause}", file=sys.stderr)
        sys.exit(FAULT)


if __name__ == "__main__":
    main()
