"""The units of a stream: read as they come, watched as they pass, and written."""
from .plain import decoder
from .sequence import read_header

PREFIX = b"BBCD"
LENGTH = decoder.PARSE_INFO_LENGTH
SEQUENCE_HEADER, END_OF_SEQUENCE = decoder.SEQUENCE_HEADER, decoder.END_OF_SEQUENCE
PICTURES, AUXILIARY_DATA = decoder.REFERENCE_COUNTS, decoder.AUXILIARY_DATA
LONGEST_HEADER = 1 << 16


def number_at(data, place):
    """Four bytes as a number."""
    return int.from_bytes(data[place : place + 4], "big")


def read_units(source):
    """The units in turn; raises the fault that ends them, as the plain decoder names it."""
    index, place, is_closed = 0, 0, False
    while True:
        data = source.read(LENGTH)
        if not data:
            break
        if len(data) == LENGTH and data[:4] == PREFIX:
            data += source.read(max(0, number_at(data, 5) - LENGTH))
        try:
            unit = decoder.read_unit(data, index, 0)
        except decoder.StreamFault as fault:
            raise decoder.StreamFault(fault.unit, place + fault.place, fault.cause) from None
        yield unit._replace(place=place)
        is_closed = unit.code == END_OF_SEQUENCE
        place += LENGTH + len(unit.payload)
        index += 1
    if not is_closed:
        raise decoder.StreamFault(index, place, "MissingEnd")


class Sequence:
    """A sequence header, and how many pictures came behind it so far."""

    def __init__(self, header):
        self.header, self.pictures = header, 0


class Watcher:
    """Looks at a stream that passes in pieces, and changes nothing; stops looking where it isn't a row of units."""

    def __init__(self):
        self.sequences, self.bytes, self.pictures = [], 0, 0
        self._held, self._skipped = bytearray(), 0
        self._is_open, self._is_watching = False, True

    def feed(self, data):
        self.bytes += len(data)
        if self._is_watching:
            self._held += data
            while self._is_watching and self._take():
                pass

    def _take(self):
        """One step; whether there was one."""
        passed = min(self._skipped, len(self._held))
        del self._held[:passed]
        self._skipped -= passed
        if self._skipped or len(self._held) < LENGTH:
            return False
        code, length = self._held[4], max(LENGTH, number_at(self._held, 5))
        if self._held[:4] != PREFIX or (code == SEQUENCE_HEADER and length > LONGEST_HEADER):
            self._is_watching = False
            return False
        if code == SEQUENCE_HEADER and len(self._held) < length:
            return False
        self._see(code, bytes(self._held[LENGTH:length]) if code == SEQUENCE_HEADER else b"")
        self._skipped = length
        return True

    def _see(self, code, payload):
        if code == SEQUENCE_HEADER and not self._is_open:
            try:
                self.sequences.append(Sequence(read_header(payload)))
                self._is_open = True
            except decoder.Fault:
                self._is_watching = False
        elif code == END_OF_SEQUENCE:
            self._is_open = False
        elif code in PICTURES and self._is_open:
            self.sequences[-1].pictures += 1
            self.pictures += 1


class UnitWriter:
    """Writes units with both of their offsets."""

    def __init__(self, sink):
        self.sink, self.previous, self.bytes = sink, 0, 0

    def write(self, code, payload=b""):
        length = LENGTH + len(payload)
        following = 0 if code == END_OF_SEQUENCE else length
        offsets = following.to_bytes(4, "big") + self.previous.to_bytes(4, "big")
        self.sink.write(PREFIX + bytes([code]) + offsets + payload)
        self.previous = length
        self.bytes += length
