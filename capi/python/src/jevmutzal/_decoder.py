"""Streams in, pictures out."""
import contextlib
import ctypes
import os
from dataclasses import dataclass
from fractions import Fraction
from typing import NamedTuple, Optional

from . import _library as c

CHROMA = ("4:4:4", "4:2:2", "4:2:0")
PIECE = 65536


class Clean(NamedTuple):
    """The part of a frame that is to be shown, as the stream says; it may lie outside of it."""

    width: int
    height: int
    left: int
    top: int


class Range(NamedTuple):
    """Luma's black and its distance to white; the chroma without colour and its whole width."""

    luma_offset: int
    luma_excursion: int
    chroma_offset: int
    chroma_excursion: int


FULL = Range(0, 255, 128, 255)
VIDEO = Range(16, 219, 128, 224)


def _ratio(numerator, denominator) -> Optional[Fraction]:
    return Fraction(numerator, denominator) if denominator else None


@dataclass(frozen=True)
class Format:
    """What a stream's sequence header says of its pictures. Sizes are in luma samples of a frame; where pictures are
    fields, each has half of the rows. Rate is in frames a second. A ratio that the stream doesn't say is None."""

    width: int
    height: int
    chroma: str
    interlaced: bool
    fields: bool
    base: int
    rate: Optional[Fraction]
    aspect: Optional[Fraction]
    range: Range
    clean: Clean

    @classmethod
    def _of(cls, it):
        return cls(
            it.width,
            it.height,
            CHROMA[it.chroma],
            bool(it.interlaced),
            bool(it.fields),
            it.base,
            _ratio(it.rate_numerator, it.rate_denominator),
            _ratio(it.aspect_numerator, it.aspect_denominator),
            Range(it.luma_offset, it.luma_excursion, it.chroma_offset, it.chroma_excursion),
            Clean(it.clean_width, it.clean_height, it.clean_left, it.clean_top),
        )


@dataclass(frozen=True)
class Picture:
    """A picture: its number in the stream, the sizes of its planes, and the planes as bytes, row by row, a byte a
    sample."""

    number: int
    width: int
    height: int
    chroma_width: int
    chroma_height: int
    format: Format
    y: bytes
    u: bytes
    v: bytes

    @property
    def planes(self):
        return (self.y, self.u, self.v)

    def raw(self) -> bytes:
        """The rows of Y, then of U, then of V: what `dirac_tool decode` writes of a picture."""
        return b"".join(self.planes)

    def sizes(self):
        """Width and height of each plane."""
        chroma = (self.chroma_width, self.chroma_height)
        return ((self.width, self.height), chroma, chroma)

    def arrays(self):
        """The planes as numpy arrays of rows by columns, which share the bytes and can't be written to."""
        import numpy

        return tuple(
            numpy.frombuffer(plane, numpy.uint8).reshape(height, width)
            for plane, (width, height) in zip(self.planes, self.sizes())
        )

    def __repr__(self):
        return f"<Picture {self.number}, {self.width} by {self.height}, {self.format.chroma}>"


class Decoder:
    """A decoder that is sent its stream in pieces.

    with Decoder() as decoder:
        decoder.send(piece)                 # any bytes, cut anywhere
        for picture in decoder.pictures():  # those that the bytes so far show
            ...
        decoder.finish()
        for picture in decoder.pictures():  # the rest; is_ended is True behind them, or Fault is raised
            ...

    One thread at a time may use a decoder; different ones are independent, and decoding holds no lock of Python's.
    """

    def __init__(self):
        self._handle, self._shown, self.is_ended = c.Handle(), None, False
        self._library = c.library()
        if self._library.jev_decoder_open(self._handle) != c.OK:
            raise MemoryError("no memory for a decoder")

    def send(self, data):
        """Sends the stream's next bytes: anything that holds bytes."""
        data = data if isinstance(data, bytes) else bytes(memoryview(data))
        self._check(self._library.jev_decoder_send(self._handle, data, len(data)))

    def finish(self):
        """Says that no more bytes follow."""
        self._check(self._library.jev_decoder_finish(self._handle))

    def next(self):
        """The next picture, or None where more bytes are needed or the stream has ended (`is_ended` tells which)."""
        self._shown, frame = None, c.Frame()
        answer = self._library.jev_decoder_next(self._handle, frame)
        if answer == c.PICTURE:
            self._shown = frame
            return self._picture(frame)
        self.is_ended = answer == c.END
        if answer == c.FAULT:
            raise c.Fault(frame.unit, frame.at, c.cause_name(frame.cause))
        if answer not in (c.NEEDS, c.END):
            self._check(answer)
        return None

    def pictures(self):
        """Each picture that the bytes sent so far show, up to where more are needed or the stream ends."""
        while True:
            picture = self.next()
            if picture is None:
                return
            yield picture

    def format(self):
        """The Format of the last sequence header that was read, or None before the first."""
        fields = c.FormatFields()
        answer = self._library.jev_decoder_format(self._handle, fields)
        if answer == c.NO_PICTURE:
            return None
        self._check(answer)
        return Format._of(fields)

    def copy_plane(self, plane, out, stride=None):
        """Copies plane 0, 1 or 2 of the picture that the last `next` gave into a writable buffer, its rows `stride`
        bytes apart (a row's length where none is given). Bytes between rows are left as they are."""
        view = memoryview(out).cast("B")
        if view.readonly:
            raise TypeError("the buffer can't be written to")
        if stride is None:
            stride = self._row(plane)
        if stride < 0 or plane < 0:
            raise ValueError("a plane and a stride are at least 0")
        # an empty buffer has no address that C may be given
        room = (ctypes.c_uint8 * len(view)).from_buffer(view) if len(view) else (ctypes.c_uint8 * 1)()
        self._check(self._library.jev_decoder_plane(self._handle, plane, room, len(view), stride))

    def close(self):
        """Frees what the decoder holds. Closing twice does nothing."""
        self._library.jev_decoder_close(self._handle)

    def __enter__(self):
        return self

    def __exit__(self, *_):
        self.close()

    def __del__(self):
        # where the library isn't there, nothing was opened
        if getattr(self, "_library", None) is not None:
            self.close()

    def _row(self, plane):
        frame = self._shown
        return 0 if frame is None else frame.width if plane == 0 else frame.chroma_width

    def _picture(self, frame):
        sizes = [(frame.width, frame.height)] + 2 * [(frame.chroma_width, frame.chroma_height)]
        planes = []
        for plane, (width, height) in enumerate(sizes):
            room = bytearray(width * height)
            self.copy_plane(plane, room, width)
            planes.append(bytes(room))
        numbers = (frame.number, frame.width, frame.height, frame.chroma_width, frame.chroma_height)
        return Picture(*numbers, self.format(), *planes)

    @staticmethod
    def _check(answer):
        if answer == c.OK:
            return
        if answer == c.CLOSED:
            raise ValueError("the decoder is closed")
        if answer == c.NO_PICTURE:
            raise ValueError("there is no picture")
        if answer == c.SMALL:
            raise ValueError("the buffer is too small for the plane at this stride, or the stride for a row")
        if answer == c.UNKNOWN:
            raise ValueError("there is no such plane: 0 is Y, 1 is U, 2 is V")
        if answer == c.FINISHED:
            raise ValueError("finish was called before")
        if answer == c.STOPPED:
            raise MemoryError("the decoder stopped for want of memory")
        raise MemoryError("no memory")


@contextlib.contextmanager
def _opened(source):
    if isinstance(source, (str, os.PathLike)):
        with open(source, "rb") as stream:
            yield stream
    else:
        yield source


def _pieces(source, size):
    if isinstance(source, (bytes, bytearray, memoryview)):
        view = memoryview(source).cast("B")
        for at in range(0, len(view), size):
            yield view[at : at + size]
        return
    with _opened(source) as stream:
        while True:
            piece = stream.read(size)
            if not piece:
                return
            yield piece


def decode(source, piece=PIECE):
    """The pictures of a stream, one by one, as they leave: `source` is a path, a file opened for bytes, or bytes, of
    which `piece` bytes are read at a time. Raises Fault behind the pictures where the stream has one."""
    if piece < 1:
        raise ValueError("a piece has at least one byte")
    with Decoder() as decoder:
        for data in _pieces(source, piece):
            decoder.send(data)
            yield from decoder.pictures()
        decoder.finish()
        yield from decoder.pictures()
