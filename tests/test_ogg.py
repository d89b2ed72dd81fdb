"""Dirac streams out of Ogg pages."""
import io
import unittest

from tests import support
from tests.ogg_writer import Pages

from front import ogg


def packets_of(stream):
    """One unit a packet."""
    units = support.units_of(stream)
    ends = [unit.place for unit in units[1:]] + [len(stream)]
    return [stream[unit.place : end] for unit, end in zip(units, ends)]


def read(data):
    told = []
    return b"".join(ogg.read_dirac(io.BytesIO(data), told.append)), told


class Ogg(unittest.TestCase):
    def setUp(self):
        self.stream = support.encoded(6, gop=3, index=0, width=32, height=32)
        self.packets = packets_of(self.stream)

    def test_every_packet_comes_out(self):
        for most in (1, 2, 3, 255):
            self.assertEqual(read(b"".join(Pages(7, most).pages(self.packets))), (self.stream, []), most)

    def test_other_streams_are_passed_over(self):
        sound = Pages(1, 2).pages([b"\x01vorbis" + bytes(20), *(bytes([n]) * 300 for n in range(9))])
        video = Pages(2, 3).pages(self.packets)
        mixed = [page for pair in zip(sound, video) for page in pair]
        mixed += sound[len(video) :] + video[len(sound) :]
        self.assertEqual(read(b"".join(mixed)), (self.stream, []))

    def test_streams_behind_one_another(self):
        data = b"".join(Pages(1).pages(self.packets) + Pages(2).pages(self.packets))
        self.assertEqual(read(data), (2 * self.stream, []))

    def test_a_packet_of_a_multiple_of_255_bytes(self):
        packets = [b"BBCD" + bytes(251), b"x" * 510, b"y"]
        self.assertEqual(read(b"".join(Pages(3, 1).pages(packets)))[0], b"".join(packets))

    def test_a_page_that_is_lost_or_damaged_takes_its_packets_alone(self):
        pages = Pages(7, 2).pages(self.packets)
        lost = b"".join(pages[:3] + pages[4:])
        out, told = read(lost)
        self.assertEqual(told, ["Ogg: page 4 comes where 3 was expected"])
        self.assertTrue(out.startswith(self.packets[0]) and out.endswith(self.packets[-1]))
        self.assertTrue(all(out.count(packet) <= self.stream.count(packet) for packet in self.packets))
        damaged = bytearray(b"".join(pages))
        damaged[sum(map(len, pages[:3])) + 40] ^= 1
        again, told = read(bytes(damaged))
        self.assertEqual(again, out)
        self.assertEqual(len(told), 2)

    def test_no_dirac_inside(self):
        self.assertEqual(read(b"".join(Pages(1).pages([b"\x01vorbis", b"x"])))[0], b"")
        self.assertEqual(read(b"OggS")[0], b"")

    @unittest.skipUnless(support.has("ffprobe"), "no ffprobe")
    def test_ffprobe_reads_what_the_test_writes(self):
        data = b"".join(Pages(7, 2).pages(self.packets))
        done = support.run(["ffprobe", "-v", "error", "-show_entries", "stream=codec_name,width", "-"], data)
        self.assertIn("codec_name=dirac", done.out.decode())
