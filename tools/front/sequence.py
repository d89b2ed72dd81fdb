"""Sequence headers: all that they say, and how it is spelt."""
from fractions import Fraction
from typing import NamedTuple

from .formats import ASPECTS, BASE_FORMATS, BOTTOM_FIRST, COLOURS, HDTV, PROGRESSIVE, RATES, SDTV_525, SDTV_625
from .formats import TOP_FIRST, Video
from .plain import decoder, encoder


class Header(NamedTuple):
    """The values of a header, those of its base where it has none of its own. A frame has `height` rows.

    `colour` is what stands behind its custom flag: an index, a tuple of three parts, or None where there is none.
    """

    version: tuple
    profile: int
    level: int
    base: int
    width: int
    height: int
    chroma: int
    is_interlaced: bool
    rate: Fraction
    aspect: Fraction
    clean: tuple
    signal: tuple
    colour: object
    has_fields: bool

    def picture_height(self):
        return self.height // 2 if self.has_fields else self.height

    def pictures_a_second(self):
        return 2 * self.rate if self.has_fields else self.rate

    def scan(self):
        if not self.is_interlaced:
            return PROGRESSIVE
        return TOP_FIRST if BASE_FORMATS[self.base].is_top_first else BOTTOM_FIRST

    def known_colour(self):
        """The index of the colour specification; None where it is none that players know, or has another matrix."""
        if not isinstance(self.colour, tuple):
            index = BASE_FORMATS[self.base].colour if self.colour is None else self.colour
            return index if index < len(COLOURS) else None
        primaries, matrix, _ = self.colour
        if matrix in (None, 0):
            return HDTV
        return (SDTV_525 if primaries == 1 else SDTV_625) if matrix == 1 else None

    def frames(self):
        """What a clip of the stream's frames says of itself."""
        what = (self.rate, self.aspect, self.signal, self.scan(), self.known_colour())
        return Video(self.width, self.height, self.chroma, *what)

    def pictures(self):
        """The same of its pictures, which may be fields."""
        return self.frames()._replace(height=self.picture_height(), rate=self.pictures_a_second())


def _index_or_pair(reader, table, base_index):
    """A ratio by an index into a table, or by its two numbers behind index 0."""
    if not reader.flag():
        return table[base_index]
    index = reader.unsigned()
    if index > 0:
        return table[index]
    numerator, denominator = reader.unsigned(), reader.unsigned()
    return Fraction(numerator, denominator) if numerator and denominator else table[base_index]


def _colour(reader):
    if not reader.flag():
        return None
    index = reader.unsigned()
    return index if index else tuple(reader.unsigned() if reader.flag() else None for _ in range(3))


def read_header(payload):
    """The header that a payload spells; raises the plain decoder's fault where it is none of the profile."""
    decoder.read_sequence_header(payload)
    reader = decoder.BitReader(payload)
    version = (reader.unsigned(), reader.unsigned())
    profile, level, base = reader.unsigned(), reader.unsigned(), reader.unsigned()
    size, rest = decoder.BASE_FORMATS[base], BASE_FORMATS[base]
    width, height = (reader.unsigned(), reader.unsigned()) if reader.flag() else (size.width, size.height)
    chroma = reader.unsigned() if reader.flag() else size.chroma
    is_interlaced = bool(reader.unsigned()) if reader.flag() else rest.is_interlaced
    rate = _index_or_pair(reader, RATES, rest.rate)
    aspect = _index_or_pair(reader, ASPECTS, rest.aspect)
    clean = tuple(reader.unsigned() for _ in range(4)) if reader.flag() else rest.clean
    signal = decoder.SIGNAL_RANGES[size.signal]
    if reader.flag():
        index = reader.unsigned()
        signal = decoder.SIGNAL_RANGES[index] if index else tuple(reader.unsigned() for _ in range(4))
    colour = _colour(reader)
    has_fields = reader.unsigned() == 1
    values = (width, height, chroma, is_interlaced, rate, aspect, clean, signal, colour, has_fields)
    return Header(version, profile, level, base, *values)


def _write_numbers(writer, is_custom, numbers):
    writer.flag(is_custom)
    for number in numbers if is_custom else ():
        writer.unsigned(number)


def _write_indexed(writer, value, base_value, table, numbers):
    """A group by its index where the table has the value, else by index 0 and its numbers."""
    spelt = (table.index(value),) if value in table else (0, *numbers)
    _write_numbers(writer, value != base_value, spelt)


def spell_header(header):
    """The payload: a group stands behind its flag exactly where it differs from the base's."""
    size, rest = decoder.BASE_FORMATS[header.base], BASE_FORMATS[header.base]
    writer = encoder.BitWriter()
    for number in (*header.version, header.profile, header.level, header.base):
        writer.unsigned(number)
    own_size = (header.width, header.height)
    _write_numbers(writer, own_size != (size.width, size.height), own_size)
    _write_numbers(writer, header.chroma != size.chroma, (header.chroma,))
    _write_numbers(writer, header.is_interlaced != rest.is_interlaced, (int(header.is_interlaced),))
    _write_indexed(writer, header.rate, RATES[rest.rate], RATES, (header.rate.numerator, header.rate.denominator))
    aspect = (header.aspect.numerator, header.aspect.denominator)
    _write_indexed(writer, header.aspect, ASPECTS[rest.aspect], ASPECTS, aspect)
    _write_numbers(writer, header.clean != rest.clean, header.clean)
    _write_indexed(writer, header.signal, decoder.SIGNAL_RANGES[size.signal], decoder.SIGNAL_RANGES, header.signal)
    writer.flag(header.colour is not None)
    if isinstance(header.colour, tuple):
        writer.unsigned(0)
        for part in header.colour:
            _write_numbers(writer, part is not None, (part,))
    elif header.colour is not None:
        writer.unsigned(header.colour)
    return writer.unsigned(int(header.has_fields)).payload()
