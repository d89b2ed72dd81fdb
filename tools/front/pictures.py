"""Pictures of a stream as far as they can be read without decoding: header, prediction parameters, block lists."""
from typing import NamedTuple

from .plain import decoder, encoder


class Picture(NamedTuple):
    """A picture's header, and what stands behind it, from a byte boundary on. `retire` is 0 or what is added."""

    code: int
    number: int
    offsets: tuple
    retire: int
    rest: bytes

    def is_reference(self):
        return self.code in decoder.REFERENCE_PICTURES

    def references(self):
        """The numbers of the pictures that it refers to."""
        return [(self.number + offset) % 2**32 for offset in self.offsets]

    def retired(self):
        return (self.number + self.retire) % 2**32 if self.retire else None

    def payload(self):
        writer = encoder.BitWriter().bytes(self.number.to_bytes(4, "big"))
        for offset in self.offsets:
            writer.signed(offset)
        if self.is_reference():
            writer.signed(self.retire)
        return writer.payload() + self.rest


def read_picture(code, payload):
    """Raises the plain decoder's fault where there is no whole header."""
    reader = decoder.BitReader(payload)
    number = reader.literal()
    offsets = tuple(reader.signed() for _ in range(decoder.REFERENCE_COUNTS[code]))
    retire = reader.signed() if code in decoder.REFERENCE_PICTURES else 0
    reader.align()
    return Picture(code, number, offsets, retire, payload[reader.place() :])


def reader_behind_blocks(picture, chroma):
    """A reader of the rest, at the zero residual flag, or in an intra picture at the wavelet index."""
    reader = decoder.BitReader(picture.rest)
    count = len(picture.offsets)
    if count:
        decoder.read_prediction_parameters(reader, count, chroma)
        for _ in range(2 + 2 * count + 3):
            reader.align()
            length = reader.unsigned()
            reader.align()
            reader.bytes(length)
        reader.align()
    return reader


class References:
    """The numbers that are listed, as a decoder's list has them (docs/FORMAT.md, References)."""

    def __init__(self):
        self.listed = []

    def take(self, picture):
        if not picture.is_reference():
            return
        gone = (picture.retired(), picture.number)
        self.listed = [number for number in self.listed if number not in gone]
        self.listed = self.listed[-(decoder.MOST_REFERENCES - 1) :] + [picture.number]
