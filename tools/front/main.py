"""The words of the front program."""
import argparse
import os
import sys

from . import compare, decode, edit, encode, info, play, repair
from .refusal import Refusal

COMMANDS = [info, encode, decode, play, repair, edit, compare]
EPILOG = """examples:
  dirac info examples/moving.drc
  dirac play examples/moving.drc
  dirac decode examples/moving.drc -o moving.y4m
  dirac encode clip.mp4 -o clip.drc

Each command has its own --help with examples. docs/FRONT.md says more; `./run`, the proved program alone, has the exact
words of docs/PROGRAM.md.
"""
INTERRUPTED = 130


class Parser(argparse.ArgumentParser):
    """Tells what is wrong with the words in one line."""

    def __init__(self, *arguments, **words):
        super().__init__(*arguments, allow_abbrev=False, **words)

    def error(self, message):
        self.exit(2, f"{self.prog}: {message}; `{self.prog} --help` has the words\n")


def parser():
    top = Parser(
        prog="dirac",
        description="Looks at, makes, plays and mends Dirac video, by the proved codec of this repository.",
        epilog=EPILOG,
        formatter_class=argparse.RawDescriptionHelpFormatter,
    )
    commands = top.add_subparsers(metavar="COMMAND", parser_class=Parser)
    for command in COMMANDS:
        command.add_to(commands)
    return top


def leave_output():
    """Points standard output nowhere, so that what it still holds isn't told as an error at the end."""
    nowhere = os.open(os.devnull, os.O_WRONLY)
    os.dup2(nowhere, 1)
    os.close(nowhere)


def main(arguments):
    """The status."""
    top = parser()
    words = top.parse_args(arguments)
    if not hasattr(words, "run"):
        top.print_help(sys.stderr)
        return 2
    try:
        status = words.run(words)
        if sys.stdout is not None:
            sys.stdout.flush()
        return status
    except Refusal as problem:
        print(f"dirac: {problem.text}", file=sys.stderr)
        return problem.status
    except BrokenPipeError:
        leave_output()
        return 1
    except OSError as problem:
        print(f"dirac: {problem.strerror or problem}", file=sys.stderr)
        leave_output()
        return 1
    except KeyboardInterrupt:
        print("dirac: interrupted", file=sys.stderr)
        return INTERRUPTED
