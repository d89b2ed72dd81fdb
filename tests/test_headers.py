"""Sequence headers, units and y4m lines, read and written."""
import io
import unittest
from fractions import Fraction

from tests import support
from tests.support import conformance, decoder, encoder

import writer
from front import formats, sequence, units, y4m
from front.refusal import Refusal


class Headers(unittest.TestCase):
    def test_what_the_encoder_writes_is_spelt_the_same(self):
        for base in range(17):
            for values in ({}, {"width": 48, "height": 32}, {"rate": 5, "signal": 1}, {"fields": 1, "chroma": 2}):
                settings = encoder.default_settings(base) | values
                payload = encoder.sequence_header(settings)
                self.assertEqual(sequence.spell_header(sequence.read_header(payload)), payload, (base, values))

    def test_size_and_chroma_as_the_plain_decoder_reads_them(self):
        for name in ("base_formats", "sizes", "fields", "sequences_of_different_kinds", "header_of_own_values"):
            for unit in support.units_of(conformance(name)):
                if unit.code == decoder.SEQUENCE_HEADER:
                    plain, header = decoder.read_sequence_header(unit.payload), sequence.read_header(unit.payload)
                    self.assertEqual((plain.width, plain.height), (header.width, header.picture_height()))
                    self.assertEqual(plain.chroma, header.chroma)

    def test_own_values(self):
        payload = writer.sequence_header(
            3, (50, 40), 1, 1, (17, 2), (7, 5), (40, 30, 4, 2), (0, 255, 128, 255), (1, None, 2), 0, (2, 1), 4, 5
        )
        header = sequence.read_header(payload)
        expected = ((2, 1), 4, 5, 3, 50, 40, 1, True, Fraction(17, 2), Fraction(7, 5), (40, 30, 4, 2))
        self.assertEqual(header[:11], expected)
        self.assertEqual(header[11:], (formats.FULL_RANGE, (1, None, 2), False))
        self.assertEqual(sequence.read_header(sequence.spell_header(header)), header)

    def test_values_of_the_bases(self):
        header = sequence.read_header(writer.sequence_header(8, signal=2))
        self.assertEqual((header.width, header.height, header.rate), (720, 576, 25))
        self.assertEqual((header.aspect, header.clean), (Fraction(12, 11), (704, 576, 8, 0)))
        self.assertEqual(header.scan(), formats.TOP_FIRST)
        self.assertEqual(sequence.read_header(writer.sequence_header(7, signal=2)).scan(), formats.BOTTOM_FIRST)
        self.assertEqual(sequence.read_header(writer.sequence_header(0)).scan(), formats.PROGRESSIVE)

    def test_colours(self):
        rows = [(0, None, 3), (2, None, 2), (7, None, 1), (9, None, 3), (16, None, 4), (0, 1, 1), (2, 3, 3)]
        rows += [(0, 9, None), (0, (None, 1, None), 2), (2, (1, 1, 0), 1)]
        rows += [(8, (None, None, None), 3), (0, (2, 2, None), None)]
        plain = sequence.read_header(writer.sequence_header(0))
        for base, colour, known in rows:
            header = plain._replace(base=base, signal=formats.LIMITED_RANGE, colour=colour)
            header = sequence.read_header(sequence.spell_header(header))
            self.assertEqual((header.colour, header.known_colour()), (colour, known), (base, colour))

    @unittest.skipUnless(support.has("ffprobe"), "no ffprobe")
    def test_ffprobe_takes_the_same_colours(self):
        words = ["ffprobe", "-v", "error", "-show_entries", "stream=color_space", "-of", "csv=p=0", "-f", "dirac", "-"]
        for base in (0, 1, 2, 7, 8, 9, 16):
            stream = support.encoded(1, base=base, chroma=2, signal=2)
            for colour in (None, (None, 1, None)):
                pieces = []
                for unit in support.units_of(stream):
                    payload = unit.payload
                    if unit.code == decoder.SEQUENCE_HEADER:
                        header = sequence.read_header(payload)._replace(colour=colour)
                        payload, known = sequence.spell_header(header), header.known_colour()
                    pieces.append((unit.code, payload))
                told = support.run(words, support.stream_of(pieces)).out.decode().strip()
                self.assertIn(told, (formats.FFMPEG_COLOURS[known][0], "bt470bg" if known == 1 else ""), (base, colour))

    def test_fields_come_twice_as_often(self):
        header = sequence.read_header(writer.sequence_header(8, signal=2, mode=1))
        self.assertEqual((header.pictures_a_second(), header.picture_height()), (50, 288))


class Units(unittest.TestCase):
    def test_units_and_faults_as_the_plain_decoder_reads_them(self):
        for path in sorted((support.TOP / "conformance" / "streams").glob("*.drc")):
            data = path.read_bytes()
            found, fault = [], None
            try:
                found += units.read_units(io.BytesIO(data))
            except decoder.StreamFault as problem:
                fault = (problem.unit, problem.place, problem.cause)
            lines, expected = decoder.list_units(data)
            self.assertEqual(len(found) if fault is None else None, lines.count("\n") if expected is None else None)
            self.assertEqual(fault, expected and (expected.unit, expected.place, expected.cause), path.name)

    def test_watched_in_pieces_of_any_length(self):
        data = support.encoded(5, gop=4)
        for length in (1, 7, 13, len(data)):
            watcher = units.Watcher()
            for place in range(0, len(data), length):
                watcher.feed(data[place : place + length])
            self.assertEqual((watcher.bytes, watcher.pictures, len(watcher.sequences)), (len(data), 5, 1))

    def test_a_watcher_stops_where_no_unit_is(self):
        watcher = units.Watcher()
        watcher.feed(b"no stream at all, but long enough to look at")
        self.assertEqual((watcher.pictures, watcher.sequences), (0, []))


def header(text):
    return y4m.read_header(io.BytesIO(text.encode() + b"\n"))


class Y4m(unittest.TestCase):
    def test_what_a_line_says(self):
        video = header("YUV4MPEG2 W720 H576 F25:1 It A16:15 C422 XYSCSS=422 XCOLORRANGE=FULL")
        expected = (720, 576, 1, 25, Fraction(16, 15), formats.FULL_RANGE, formats.TOP_FIRST, None)
        self.assertEqual(tuple(video), expected)

    def test_what_a_line_leaves_out(self):
        video = header("YUV4MPEG2 W16 H8")
        self.assertEqual(tuple(video), (16, 8, 2, None, 1, formats.LIMITED_RANGE, formats.PROGRESSIVE, None))
        self.assertIsNone(header("YUV4MPEG2 W16 H8 F0:0 A0:0").rate)

    def test_refused_lines(self):
        lines = ["YUV4MPEG2 W16", "YUV4MPEG2 W16 H8 C420p10", "YUV4MPEG2 W16 H8 Cmono", "RIFF", "YUV4MPEG2 W1 H1 Fx"]
        for line in lines:
            with self.assertRaises(Refusal, msg=line):
                header(line)

    def test_written_lines_are_read_the_same(self):
        for scan in (formats.PROGRESSIVE, formats.TOP_FIRST, formats.BOTTOM_FIRST):
            for signal in (formats.FULL_RANGE, formats.LIMITED_RANGE):
                for chroma in range(3):
                    video = formats.Video(8, 4, chroma, Fraction(15, 2), Fraction(4, 3), signal, scan)
                    self.assertEqual(y4m.read_header(io.BytesIO(y4m.spell_header(video))), video)

    def test_pictures(self):
        self.assertEqual(list(y4m.read_pictures(io.BytesIO(b"FRAME\nabFRAME Ip\ncd"), 2)), [b"ab", b"cd"])
        for wrong in (b"FRAME\na", b"FRAME", b"frame\nab", b"FRAME\nabc"):
            with self.assertRaises(Refusal, msg=wrong):
                list(y4m.read_pictures(io.BytesIO(wrong), 2))


class Formats(unittest.TestCase):
    def test_nearest_rates(self):
        self.assertEqual(formats.nearest_rates(Fraction(15)), [Fraction(15000, 1001), Fraction(24000, 1001)])
        self.assertEqual(formats.nearest_rates(Fraction("23.976")), [Fraction(24000, 1001), Fraction(15000, 1001)])
        self.assertEqual(formats.nearest_rates(Fraction(120)), [60])
        self.assertEqual(formats.nearest_rates(Fraction(1)), [Fraction(25, 2)])

    def test_rates_that_a_container_rounded(self):
        for rate, table in (("23.976", Fraction(24000, 1001)), ("29.97", Fraction(30000, 1001)), ("24", 24)):
            self.assertEqual(formats.rounded_rate(Fraction(rate)), table)
        for rate in ("14.99", "24.01", "10"):
            self.assertEqual(formats.rounded_rate(Fraction(rate)), Fraction(rate))
        self.assertIsNone(formats.rounded_rate(None))

    def test_words(self):
        self.assertEqual(formats.read_rate("30000:1001"), Fraction(30000, 1001))
        self.assertEqual(formats.read_rate("12.5"), Fraction(25, 2))
        self.assertEqual([formats.read_chroma(text) for text in ("4:4:4", "422", "yuv420p")], [0, 1, 2])
        self.assertEqual(formats.read_size("720x576"), (720, 576))
        for read, text in ((formats.read_rate, "0"), (formats.read_rate, "x"), (formats.read_chroma, "411")):
            with self.assertRaises(Refusal):
                read(text)

    def test_sizes(self):
        formats.check_size(853, 480, 0)
        for size in ((853, 480, 1), (852, 479, 2), (4098, 16, 0), (0, 0, 0)):
            with self.assertRaises(Refusal, msg=size):
                formats.check_size(*size)

    def test_bases_have_the_tables_of_the_format(self):
        rows = (support.TOP / "docs" / "FORMAT.md").read_text().split("| Base | Size |")[1].splitlines()[2:16]
        for row in rows:
            bases, size, chroma, sampling, rate, aspect, clean, signal = [cell.strip() for cell in row.split("|")[1:9]]
            for base, index in zip(bases.split(", "), rate.split(", ") * 2):
                plain, own = decoder.BASE_FORMATS[int(base)], formats.BASE_FORMATS[int(base)]
                self.assertEqual((f"{plain.width}x{plain.height}", plain.signal), (size, int(signal)))
                self.assertEqual(formats.CHROMA_FORMATS[plain.chroma].name, chroma)
                self.assertEqual((own.is_interlaced, own.aspect), (sampling == "interlaced", int(aspect)))
            self.assertEqual(
                [formats.BASE_FORMATS[int(base)].rate for base in bases.split(", ")],
                [int(index) for index in rate.split(", ")],
            )
            own = formats.BASE_FORMATS[int(bases.split(", ")[0])].clean
            wanted = f"{own[0]}x{own[1]}, left {own[2]}, top {own[3]}" if own[2] else "full"
            self.assertEqual(clean, wanted)
