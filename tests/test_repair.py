"""Damaged, cut and old streams: what comes out decodes, and shows what is still there."""
import unittest

from tests import support
from tests.ogg_writer import Pages
from tests.support import InFolder, conformance, decoder, shown, stream_of, units_of
from tests.test_ogg import packets_of

import writer
from front import old_schroedinger, pictures
from front.formats import Video


def places_of(stream, code):
    return [unit.place for unit in units_of(stream) if unit.code == code]


class Damage(InFolder):
    """Twelve pictures in groups of four; the second reference of a group is its fourth picture.

    What is repaired is shown by ffmpeg too, where it is there.
    """

    def setUp(self):
        super().setUp()
        self.stream = support.encoded(12, gop=4)
        self.pictures = shown(self.stream)

    def repaired(self, data, *words):
        done = self.dirac("repair", self.write("in.drc", data), "-o", "out.drc", *words)
        self.assertEqual(done.status, 0, done.err)
        return self.read("out.drc"), done.err

    def assert_shows(self, data, numbers, *said, words=()):
        out, err = self.repaired(data, *words)
        expected = [self.pictures[number] for number in numbers]
        self.assertEqual(shown(out), expected)
        if support.has("ffmpeg"):
            self.assertEqual(support.shown_by_ffmpeg(out)[0], b"".join(expected))
        for text in said:
            self.assertIn(text, err)

    def test_a_whole_stream_stays_as_it_is(self):
        out, err = self.repaired(self.stream)
        self.assertEqual(out, self.stream)
        self.assertIn("nothing had to be mended", err)

    def test_one_bit_of_each_next_offset(self):
        for unit in units_of(self.stream)[:-1]:
            for bit in (0, 3, 31):
                data = bytearray(self.stream)
                data[unit.place + 5 + bit // 8] ^= 0x80 >> bit % 8
                self.assertEqual(self.repaired(bytes(data))[0], self.stream, (unit.index, bit))

    def test_one_bit_of_each_prefix_and_previous_offset(self):
        for unit in units_of(self.stream):
            for place in (unit.place + 2, unit.place + 12) if unit.place else (12,):
                data = bytearray(self.stream)
                data[place] ^= 1
                out, err = self.repaired(bytes(data))
                self.assertEqual(out, self.stream, place)
                self.assertIn("only offsets had to be put right", err)

    def test_the_front_is_lost(self):
        second = places_of(self.stream, 0)[1]
        self.assert_shows(self.stream[second - 20 :], range(4, 12), "unit 0 at byte 0: 20 bytes left out")

    def test_the_first_header_is_lost(self):
        header = units_of(self.stream)[0]
        data = self.stream[13 + len(header.payload) :]
        self.assert_shows(data, range(12), "sequence headers put in front of pictures: 1")

    def test_the_only_header_comes_from_another_stream(self):
        pieces = [(unit.code, unit.payload) for unit in units_of(self.stream) if unit.code != 0]
        name = self.write("in.drc", stream_of(pieces))
        done = self.dirac("repair", name, "-o", "out.drc")
        self.assertEqual((done.status, self.names()), (1, ["in.drc"]))
        self.assertIn("--header", done.err)
        other = self.write("other.drc", self.stream)
        self.assertEqual(self.dirac("repair", name, "-o", "out.drc", "--header", other).status, 0)
        self.assertEqual(shown(self.read("out.drc")), self.pictures)

    def test_out_of_ogg_without_its_first_header(self):
        # so ffmpeg -c copy leaves it: the first packet is gone
        self.assert_shows(b"".join(packets_of(self.stream)[1:]), range(12))

    def test_out_of_ogg(self):
        data = b"".join(Pages(7, 2).pages(packets_of(self.stream)))
        out, err = self.repaired(data)
        self.assertEqual((out, "nothing" in err), (self.stream, True))

    def test_a_damaged_page_of_ogg(self):
        pages = Pages(7, 2).pages(packets_of(self.stream))
        data = bytearray(b"".join(pages))
        data[sum(map(len, pages[:4])) + 40] ^= 1
        out, err = self.repaired(bytes(data))
        pictures_left = shown(out)
        self.assertTrue(8 <= len(pictures_left) < 12 and set(pictures_left) <= set(self.pictures))
        self.assertIn("Ogg: no whole page", err)

    def test_cut_within_a_group(self):
        # units: header, then pictures 0 3 1 2, header, 4 7 5 6, ..
        units = [(unit.code, unit.payload) for unit in units_of(self.stream)]
        data = stream_of(units[:1] + units[3:])
        self.assert_shows(data, range(4, 12), "picture 1 left out: it refers to picture 0, which isn't there")

    def test_a_lost_anchor_takes_what_refers_to_it(self):
        units = [(unit.code, unit.payload) for unit in units_of(self.stream)]
        data = stream_of(units[:2] + units[3:])
        self.assert_shows(data, [0, *range(4, 12)], "picture 2 left out: it refers to picture 3, which isn't there")

    def test_no_end_unit(self):
        self.assert_shows(self.stream[:-13], range(12), "end units put at the end: 1")

    def test_truncated(self):
        third = places_of(self.stream, 0)[2]
        # within picture 5, behind 4 and 7
        self.assert_shows(self.stream[: third - 60], [0, 1, 2, 3, 4, 5, 7], "the file ends within it")

    def test_bytes_between_units(self):
        place = places_of(self.stream, 0)[1]
        data = self.stream[:place] + b"noise that isn't a unit" + self.stream[place:]
        self.assert_shows(data, range(12), "23 bytes left out: no unit begins there")

    def test_bytes_lost_within_a_picture(self):
        place = places_of(self.stream, 0x0E)[0] if places_of(self.stream, 0x0E) else places_of(self.stream, 0x0D)[1]
        data = self.stream[: place + 40] + self.stream[place + 50 :]
        self.assert_shows(data, [0, 1, 2, 3, 4, 8, 9, 10, 11], "its next offset leads nowhere")

    def test_no_offsets_at_all(self):
        data = bytearray(self.stream)
        for unit in units_of(self.stream):
            data[unit.place + 5 : unit.place + 13] = bytes(8)
        self.assert_shows(bytes(data), range(12), "next offsets filled in: 15")

    def test_another_header_without_an_end_unit(self):
        other = support.encoded(2, gop=1, signal=2)
        out, err = self.repaired(self.stream[:-13] + other)
        self.assertEqual(shown(out), self.pictures + shown(other))
        self.assertIn("end units put before another sequence header: 1", err)

    def test_a_damaged_header_is_left_out(self):
        data = bytearray(self.stream)
        data[places_of(self.stream, 0)[1] + 13] = 0
        self.assert_shows(bytes(data), range(12), "sequence header left out: ")

    def test_units_of_other_kinds(self):
        units = [(unit.code, unit.payload) for unit in units_of(self.stream)]
        units[5:5] = [(0xE8, b"picture"), (0x4C, b"picture"), (0x33, b"?"), (0x30, b"padding"), (0x21, b"data")]
        out, err = self.repaired(stream_of(units))
        self.assertEqual(shown(out), self.pictures)
        self.assertEqual([unit.code for unit in units_of(out)][5:7], [0x30, 0x21])
        for text in ("VC-2", "without arithmetic coding", "unit of code 33"):
            self.assertIn(text, err)

    def test_a_picture_that_the_program_refuses(self):
        units = [[unit.code, unit.payload] for unit in units_of(self.stream)]
        units[2][1] = units[2][1][:-1]
        self.assert_shows(stream_of(units), [0, *range(4, 12)], "the program refuses it: UnitShort", words=["--decode"])

    def test_nothing_there(self):
        for data in (b"", b"no stream at all, but long enough to look at"):
            done = self.dirac("repair", self.write("in.drc", data), "-o", "out.drc")
            self.assertEqual((done.status, self.names()), (1, ["in.drc"]))
            self.assertIn("no Dirac stream", done.err)

    def test_faults_of_conformance_streams_decode_afterwards(self):
        for path in sorted((support.TOP / "conformance" / "streams").glob("fault_*.drc"))[::10]:
            out, _ = self.repaired(path.read_bytes(), "--decode")
            self.assertIsNone(decoder.decode(out).fault, path.name)


class OldResidual(writer.Residual):
    """Bands as a Schroedinger before 1.0.8 writes them: no offset where a level has one codeblock."""

    def write_plane(self, bits, plane, width, height):
        bands = {}
        for level, kind in writer.band_kinds(self.depth):
            size = [writer.band_length(length, self.depth, level) for length in (width, height)]
            rows = self.rows(plane, level, kind, *size)
            bands[level, kind] = rows
            counts, index = self.counts[level], self.index(plane, level, kind)
            indices = None
            if counts != (1, 1):
                source = self.indices(plane, level, kind, index)
                indices = [next(source) for _ in range(counts[0] * counts[1])]
            block = writer.band_block(kind, rows, bands.get((level - 1, kind)), counts, index, indices)
            bits.align().unsigned(len(block), index).align().bytes(block)


def residual_of(kind, counts, seed):
    """Noise of a band's size, the same whoever writes it; in codeblocks of alternating indices."""

    def rows(plane, level, orientation, width, height):
        noise = writer.Noise(100 * seed + 10 * plane + level + ord(orientation[0]))
        return [[noise.coefficient(6, 3) for _ in range(width)] for _ in range(height)]

    def indices(plane, level, orientation, index):
        while True:
            yield index
            yield index + (0 if counts[level] == (1, 1) else 3)

    return kind(rows, lambda *_: 8, 1, 2, counts, 1, indices)


def stream_with(kind, counts, name=None):
    """An intra picture and an inter one."""
    stream = writer.Stream().sequence((32, 24))
    if name:
        stream.unit(0x20, name)
    stream.intra(0, residual_of(kind, counts, 1))
    motion = writer.Motion(lambda x, y: 0, lambda place, room: writer.Block((0, 0)), precision=0)
    return stream.inter(writer.INTER_1, 1, (-1,), motion, residual_of(kind, counts, 2)).end().data


class OldSchroedinger(InFolder):
    def repaired(self, stream, *words):
        done = self.dirac("repair", self.write("old.drc", stream), "-o", "new.drc", *words)
        self.assertEqual(done.status, 0, done.err)
        return self.read("new.drc"), done.err

    def test_names(self):
        for name, is_old in (("1.0.0", 1), ("1.0.7", 1), ("1.0.8", 0), ("1.0.10", 0), ("1.0.70", 0), ("2.0.1", 0)):
            payload = b"\x01Schroedinger " + name.encode() + b"\0"
            self.assertEqual(old_schroedinger.is_old(payload), bool(is_old), name)

    def test_one_codeblock_everywhere(self):
        counts = [(1, 1)] * 3
        old = stream_with(OldResidual, counts, b"\x01Schroedinger 1.0.5\0")
        new, err = self.repaired(old)
        self.assertNotEqual(decoder.decode(old).pictures, shown(new))
        self.assertEqual(shown(new), shown(stream_with(writer.Residual, counts)))
        self.assertIn("pictures of an old Schroedinger spelt by the standard: 2", err)
        self.assertIn("auxiliary data left out", err)

    def test_one_codeblock_at_some_levels(self):
        for counts in ([(1, 1), (2, 3), (4, 2)], [(1, 1), (1, 1), (3, 3)], [(2, 2), (1, 1), (2, 1)]):
            old = stream_with(OldResidual, counts, b"\x01Schroedinger 1.0.7")
            new, _ = self.repaired(old)
            self.assertEqual(shown(new), shown(stream_with(writer.Residual, counts)), counts)

    def test_many_codeblocks_everywhere_stay(self):
        counts = [(2, 2), (2, 2), (3, 2)]
        old = stream_with(OldResidual, counts, b"\x01Schroedinger 1.0.7")
        self.assertEqual(shown(self.repaired(old)[0]), shown(old))

    def test_newer_ones_and_those_without_a_name_stay(self):
        counts = [(1, 1), (2, 3), (4, 2)]
        for name in (b"\x01Schroedinger 1.0.8", None):
            stream = stream_with(writer.Residual, counts, name)
            self.assertEqual(self.repaired(stream)[0], stream)
        new, _ = self.repaired(stream_with(OldResidual, counts), "--old")
        self.assertEqual(shown(new), shown(stream_with(writer.Residual, counts)))

    @unittest.skipUnless(support.has("ffmpeg"), "no ffmpeg")
    def test_ffmpeg_shows_of_the_old_stream_what_the_new_one_shows(self):
        for counts in ([(1, 1)] * 3, [(1, 1), (2, 3), (4, 2)]):
            old = stream_with(OldResidual, counts, b"\x01Schroedinger 1.0.7")
            self.assertEqual(support.shown_by_ffmpeg(old)[0], b"".join(shown(self.repaired(old)[0])), counts)


def black(count):
    """Black pictures of 32 by 32, whose inter ones have zero residuals."""
    return support.encoded(count, (bytes([16]) * 1024 + bytes([128]) * 512) * count, width=32, height=32, depth=2)


def zero_flags(stream):
    """How many inter pictures have the flag of a zero residual."""
    count = 0
    for unit in units_of(stream):
        if unit.code in (0x09, 0x0A, 0x0D, 0x0E):
            picture = pictures.read_picture(unit.code, unit.payload)
            count += pictures.reader_behind_blocks(picture, 2).flag()
    return count


class ForPlayers(InFolder):
    def respelt(self, stream):
        done = self.dirac("repair", "--for-players", self.write("in.drc", stream), "-o", "out.drc")
        self.assertEqual(done.status, 0, done.err)
        return self.read("out.drc"), done.err

    def test_zero_residuals(self):
        for stream in (black(3), conformance("zero_residuals"), conformance("shapes_of_two_420")):
            new, err = self.respelt(stream)
            self.assertEqual(shown(new), shown(stream))
            self.assertEqual(zero_flags(new), 0)
            count = zero_flags(stream)
            self.assertEqual(f"bands of length 0: {count}" in err, count > 0)

    def test_what_the_flag_becomes(self):
        stream = black(2)
        units = [units_of(data)[2] for data in (stream, self.respelt(stream)[0])]
        old, new = (pictures.read_picture(unit.code, unit.payload).rest for unit in units)
        self.assertEqual(new, old[:-1] + bytes([0b01001000]) + 12 * b"\x80")
        self.assertEqual(old[-1], 0x80)

    def test_retirement(self):
        stream = support.encoded(12, gop=1)
        new, err = self.respelt(stream)
        self.assertEqual(shown(new), shown(stream))
        self.assertEqual(decoder.decode(stream).most_references, 8)
        self.assertEqual(decoder.decode(new).most_references, 1)
        self.assertIn("nothing refers to any more: 11", err)

    def test_what_is_still_referred_to_stays(self):
        for name in ("list_of_eight", "retirement", "a_number_again", "numbers_that_wrap", "fields_in_groups"):
            stream = conformance(name)
            new, _ = self.respelt(stream)
            self.assertEqual(shown(new), shown(stream), name)

    def test_done_twice_changes_nothing_more(self):
        once, _ = self.respelt(support.encoded(12, gop=4))
        self.assertEqual(self.respelt(once)[0], once)

    @unittest.skipUnless(support.has("ffmpeg"), "no ffmpeg")
    def test_ffmpeg_shows_the_same_and_says_nothing(self):
        noise = support.raw_pictures(2)
        still = (noise[:384] * 3 + noise[384:] * 3) * 4
        for stream in (black(4), support.encoded(24, still, index=20, gop=3)):
            self.assertGreater(zero_flags(stream), 0)
            new, _ = self.respelt(stream)
            self.assertEqual(support.shown_by_ffmpeg(new), (b"".join(shown(new)), ""))
