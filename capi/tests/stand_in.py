"""A stand-in for the shared object: it answers by a script, in Python, and checks how it is called."""
import ctypes
import pathlib
import sys

FOLDER = pathlib.Path(__file__).resolve().parent.parent / "python" / "src"
if str(FOLDER) not in sys.path:
    sys.path.insert(0, str(FOLDER))

import jevmutzal
from jevmutzal import _library as c

NAMES = ["MissingEnd", "Truncated", "BadPrefix"]


class Shown:
    """A picture of a script: its number and planes, each as rows of bytes."""

    def __init__(self, number, *planes):
        self.number, self.planes = number, planes


class Scripted:
    """Answers of `next`: "needs" where a further piece or the end must come first, a Shown, (unit, at, cause) of a
    fault, "end", or a number. It counts the decoders that are open."""

    def __init__(self, answers, format=None):
        self.answers, self.format, self.sent, self.finished, self.open = list(answers), format, [], 0, 0
        self.shown = None

    def jev_version(self):
        return c.VERSION

    def jev_decoder_open(self, handle):
        handle.is_open = True
        self.open += 1
        return c.OK

    def jev_decoder_close(self, handle):
        self.open -= bool(handle.is_open)
        handle.is_open = False

    def jev_decoder_send(self, handle, data, length):
        if not handle.is_open:
            return c.CLOSED
        if self.finished:
            return c.FINISHED
        assert isinstance(data, bytes) and len(data) == length
        self.sent.append(data)
        return c.OK

    def jev_decoder_finish(self, handle):
        self.finished += 1
        return c.OK if handle.is_open else c.CLOSED

    def jev_decoder_next(self, handle, frame):
        if not handle.is_open:
            return c.CLOSED
        self.shown = None
        answer = self.answers.pop(0) if len(self.answers) > 1 else self.answers[0]
        if answer == "needs":
            return c.NEEDS
        if answer == "end":
            return c.END
        if isinstance(answer, tuple):
            frame.unit, frame.at, frame.cause = answer
            return c.FAULT
        if isinstance(answer, Shown):
            self.shown = answer
            (y, u, _), frame.number = answer.planes, answer.number
            frame.width, frame.height, frame.chroma_width, frame.chroma_height = len(y[0]), len(y), len(u[0]), len(u)
            return c.PICTURE
        return answer

    def jev_decoder_plane(self, handle, plane, out, length, stride):
        if not handle.is_open:
            return c.CLOSED
        if self.shown is None:
            return c.NO_PICTURE
        if plane > 2:
            return c.UNKNOWN
        rows = self.shown.planes[plane]
        if stride < len(rows[0]) or length < stride * (len(rows) - 1) + len(rows[0]):
            return c.SMALL
        for number, row in enumerate(rows):
            out[number * stride : number * stride + len(row)] = list(row)
        return c.OK

    def jev_decoder_format(self, handle, fields):
        if not handle.is_open:
            return c.CLOSED
        if self.format is None:
            return c.NO_PICTURE
        ctypes.memmove(ctypes.byref(fields), ctypes.byref(self.format), ctypes.sizeof(fields))
        return c.OK

    def jev_cause_name(self, cause, room, length):
        name = NAMES[cause - 1].encode() if 1 <= cause <= len(NAMES) else b""
        room[: len(name)] = list(name)
        return len(name)
