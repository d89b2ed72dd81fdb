"""Writes Ogg pages, for tests of what reads them; written from RFC 3533 apart from the reader."""


def crc(data):
    """The sum bit by bit: polynomial 04C11DB7, nothing reflected, begun with 0."""
    total = 0
    for byte in data:
        total ^= byte << 24
        for _ in range(8):
            total = total << 1 ^ (0x104C11DB7 if total & 0x80000000 else 0)
    return total


class Pages:
    """One logical stream; each packet is laced into segments, at most so many a page."""

    def __init__(self, serial, most_segments=255):
        self.serial, self.most, self.number = serial, most_segments, 0

    def page(self, flags, segments, body, granule=0):
        head = b"OggS\0" + bytes([flags]) + granule.to_bytes(8, "little") + self.serial.to_bytes(4, "little")
        head += self.number.to_bytes(4, "little")
        rest = bytes([len(segments)]) + bytes(segments) + body
        self.number += 1
        return head + crc(head + bytes(4) + rest).to_bytes(4, "little") + rest

    def pages(self, packets):
        """The pages of all packets in turn: the first begins the stream, the last ends it."""
        segments = []
        for packet in packets:
            pieces = [packet[n : n + 255] for n in range(0, len(packet) + 1, 255)]
            segments += [(piece, n > 0) for n, piece in enumerate(pieces)]
        out = []
        # the first packet stands in a page of its own
        cut = [len([0 for n in range(0, len(packets[0]) + 1, 255)])]
        while cut[-1] < len(segments):
            cut.append(min(cut[-1] + self.most, len(segments)))
        begin = 0
        for end in cut:
            taken = segments[begin:end]
            flags = (2 if begin == 0 else 0) | (4 if end == len(segments) else 0) | int(taken[0][1])
            out.append(self.page(flags, [len(piece) for piece, _ in taken], b"".join(piece for piece, _ in taken)))
            begin = end
        return out
