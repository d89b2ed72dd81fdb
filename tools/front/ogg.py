"""Ogg pages, and the Dirac stream that they carry: the packets of the first logical stream that begins with a unit.

ffmpeg takes a stream's first packet for its own header and hands it to nobody, so a Dirac stream that it copies out of
Ogg begins without its sequence header. Here every packet comes out, in order.
"""
from typing import NamedTuple

from .units import PREFIX

CAPTURE = b"OggS"
HEADER_LENGTH = 27
LONGEST_PAGE = HEADER_LENGTH + 255 + 255 * 255
CONTINUED, FIRST, LAST = 1, 2, 4
WHOLE_SEGMENT = 255


def _checksum_table():
    table = []
    for value in range(256):
        rest = value << 24
        for _ in range(8):
            rest = (rest << 1 & 0xFFFFFFFF) ^ (0x04C11DB7 if rest >> 31 else 0)
        table.append(rest)
    return table


_TABLE = _checksum_table()


def checksum(page):
    """The sum of a page whose own sum is taken as zeros."""
    total = 0
    for byte in page[:22] + bytes(4) + page[26:]:
        total = (total << 8 & 0xFFFFFFFF) ^ _TABLE[total >> 24 ^ byte]
    return total


class Page(NamedTuple):
    flags: int
    serial: int
    number: int
    segments: bytes
    body: bytes


def read_page(data):
    """The page at the start of the data and its length, or None where it isn't a whole page with a right sum."""
    if data[:4] != CAPTURE or len(data) < HEADER_LENGTH or data[4] != 0:
        return None
    begin = HEADER_LENGTH + data[26]
    segments = data[HEADER_LENGTH:begin]
    end = begin + sum(segments)
    if len(data) < end or checksum(data[:end]) != int.from_bytes(data[22:26], "little"):
        return None
    serial, number = (int.from_bytes(data[place : place + 4], "little") for place in (14, 18))
    return Page(data[5], serial, number, segments, data[begin:end]), end


def read_pages(source, tell):
    """The pages in turn; what isn't one is passed over, and told of."""
    held, place = source.read(LONGEST_PAGE), 0
    while held:
        found = read_page(held)
        step = found[1] if found else held.find(CAPTURE, 1)
        step = step if step > 0 else len(held)
        if found:
            yield found[0]
        else:
            tell(f"Ogg: no whole page at {place}, {step} bytes passed over")
        held, place = held[step:], place + step
        held += source.read(LONGEST_PAGE - len(held))


def packets_of(page, begun):
    """The packets that end in a page, and what is begun in it; `begun` is what the page before left open, or None."""
    packets, place = [], 0
    packet = (begun or b"") if page.flags & CONTINUED else b""
    is_lost = bool(page.flags & CONTINUED) and begun is None
    for length in page.segments:
        packet += page.body[place : place + length]
        place += length
        if length < WHOLE_SEGMENT:
            packets += [] if is_lost else [packet]
            packet, is_lost = b"", False
    is_open = bool(page.segments) and page.segments[-1] == WHOLE_SEGMENT and not is_lost
    return packets, packet if is_open else None


def read_dirac(source, tell):
    """The packets of the Dirac streams, one chained behind the other; `tell` gets a line for each loss."""
    serial, begun, following = None, None, 0
    for page in read_pages(source, tell):
        if serial is None and page.flags & FIRST and page.body.startswith(PREFIX):
            serial, begun, following = page.serial, None, page.number
        if page.serial != serial:
            continue
        if page.number != following:
            tell(f"Ogg: page {page.number} comes where {following} was expected")
            begun = None
        following = page.number + 1
        packets, begun = packets_of(page, begun)
        yield from packets
        if page.flags & LAST:
            serial = None
