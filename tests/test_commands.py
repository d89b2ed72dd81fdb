"""The commands of the front program, on the plain decoder and encoder where the proved program would run."""
import io
import json
import os
import subprocess
import sys
import unittest
from fractions import Fraction
from unittest import mock

from tests import support
from tests.support import TOP, InFolder, conformance, decoder, encoded, encoder, raw_pictures, shown

import check
from front import decoding, encode, formats, info, matroska, outputs, play, png, progress, program, psnr, sequence
from front import units
from front.refusal import Refusal

MOVING = TOP / "examples" / "moving.drc"
QUICK = [f"--{name}={value}" for name, value in support.QUICK.items()]
SETTINGS = {**support.QUICK, "width": 16, "height": 16}


def y4m(raw, header=b"W16 H16 F25:1", length=384):
    frames = [b"FRAME\n" + raw[place : place + length] for place in range(0, len(raw), length)]
    return b"YUV4MPEG2 " + header + b"\n" + b"".join(frames)


def labelled(stream, colour):
    """The stream with these colours in its headers, where its base has others."""
    target = io.BytesIO()
    writer = units.UnitWriter(target)
    for unit in units.read_units(io.BytesIO(stream)):
        payload = unit.payload
        if unit.code == units.SEQUENCE_HEADER:
            header = sequence.read_header(payload)
            if header.known_colour() != colour:
                payload = sequence.spell_header(header._replace(colour=colour))
        writer.write(unit.code, payload)
    return target.getvalue()


def header_of(stream):
    return sequence.read_header(support.units_of(stream)[0].payload)


class Words(InFolder):
    def test_help_of_each_command(self):
        self.assertIn("examples:", self.dirac("--help").out.decode())
        for command in ("info", "encode", "decode", "play", "repair", "cut", "join", "wrap", "compare"):
            done = self.dirac(command, "--help")
            self.assertEqual((done.status, done.err), (0, ""))
            self.assertIn("examples:\n  dirac " + command, done.out.decode())
            self.assertTrue(all(len(line) <= 120 for line in done.out.decode().splitlines()), command)

    def test_wrong_words_are_told_in_one_line(self):
        self.write("a.drc", encoded(1))
        rows = [
            (["encode"], 2, "required: CLIP, -o; `dirac encode --help`"),
            (["nothing"], 2, "invalid choice"),
            (["info"], 2, "required: FILE"),
            (["info", "missing.drc"], 1, "missing.drc: No such file or directory"),
            (["info", "."], 1, "Is a directory"),
            (["decode", "a.drc"], 2, "name what to write with -o"),
            (["decode", "a.drc", "-o", "a.drc"], 1, "the file that is read"),
            (["encode", "a.drc", "-o", "x.mp4"], 2, "or Matroska, an .mkv file"),
            (["wrap", "a.drc", "-o", "x.drc"], 2, "ends in .mkv"),
            (["encode", "a.drc", "-o", "x.drc", "--index", "x"], 2, "--index"),
            (["encode", "a.drc", "-o", "x.drc", "--rate", "0"], 2, "30000/1001"),
            (["cut", "a.drc", "-o", "b.drc", "--from", "soon"], 2, "3.5s"),
            (["join", "-", "-", "-o", "b.drc"], 2, "standard input"),
        ]
        for words, status, text in rows:
            done = self.dirac(*words)
            self.assertEqual((done.status, done.out, done.err.count("\n")), (status, b"", 1), words)
            self.assertIn(text, done.err)
        self.assertEqual(self.names(), ["a.drc"])

    def test_without_words(self):
        done = self.dirac()
        self.assertEqual((done.status, done.out), (2, b""))
        self.assertIn("examples:", done.err)

    def test_without_the_program(self):
        done = self.dirac("decode", MOVING, "-o", "x.y4m", DIRAC_TOOL="missing")
        self.assertEqual((done.status, self.names()), (1, []))
        self.assertIn("DIRAC_TOOL=missing", done.err)
        self.write("in.drc", encoded(2))
        done = self.dirac("decode", "in.drc", "-o", "x.yuv", "--plain", DIRAC_TOOL="missing")
        self.assertEqual((done.status, self.read("x.yuv")), (0, b"".join(shown(encoded(2)))))


class Info(InFolder):
    def test_text(self):
        done = self.dirac("info", MOVING)
        self.assertEqual(done.status, 0)
        for text in ("176 by 144, 4:2:0", "12:11, shown 192 wide", "25/2 (12.5) frames", "full, 0 to 255", "4 intra"):
            self.assertIn(text, done.out.decode())

    def test_points_and_times(self):
        stream = encoded(7, gop=3)
        told = json.loads(self.dirac("info", "-", "--json", data=stream).out)
        only = told["sequences"][0]
        points = [(point["index"], point["picture"], point["number"]) for point in only["points"]]
        self.assertEqual(points, [(0, 0, 0), (1, 3, 3), (2, 6, 6)])
        self.assertEqual((only["pictures"], told["bytes"], told["fault"]), (7, len(stream), None))
        self.assertAlmostEqual(only["seconds"], 7 * 1001 / 24000)

    def test_several_files(self):
        for name, data in (("a.drc", encoded(1)), ("b.txt", b""), ("c.drc", conformance("fault_missing_end"))):
            self.write(name, data)
        done = self.dirac("info", "a.drc", "b.txt", "c.drc")
        self.assertEqual((done.status, done.err), (1, "dirac: b.txt is empty: no Dirac stream\n"))
        names = [line for line in done.out.decode().splitlines() if not line.startswith(" ")]
        self.assertEqual(names, ["a.drc", "c.drc"])
        done = self.dirac("info", "--json", "a.drc", "c.drc")
        self.assertEqual((done.status, [each["name"] for each in json.loads(done.out)]), (4, ["a.drc", "c.drc"]))

    def test_fields_and_sequences(self):
        rows = {row.stream: row for row in check.read_table()}
        for name in ("fields", "sequences_of_different_kinds", "header_of_own_values", "base_formats"):
            survey = info.Survey(io.BytesIO(conformance(name)))
            self.assertIsNone(survey.fault)
            self.assertEqual(str(sum(told.pictures() for told in survey.sequences)), rows[name].pictures)
        first = info.Survey(io.BytesIO(conformance("fields"))).sequences[0]
        self.assertEqual(first.seconds(), first.pictures() / 2 / first.header.rate)

    def test_faults_of_the_row_of_units(self):
        for name in ("bad_prefix", "preset", "missing_end", "sequence_changed", "no_sequence", "truncated_payload"):
            stream = conformance(f"fault_{name}")
            fault = decoder.decode(stream).fault
            done = self.dirac("info", "-", data=stream)
            self.assertEqual(done.status, 4)
            self.assertIn(f"fault in unit {fault.unit} at byte {fault.place}: {fault.cause}", done.out.decode())


class Encode(InFolder):
    def encode(self, *words):
        done = self.dirac("encode", "in.y4m", "-o", "out.drc", *QUICK, *words)
        return done.status, done.err

    def expected(self, raw, **values):
        """The stream of the plain encoder for the words that are to be given."""
        settings = encoder.default_settings(values.get("base", 0)) | SETTINGS
        settings |= {"rate": 3, "signal": 2, "alike": 1} | values
        return labelled(encoder.encode(settings, raw).stream, formats.SDTV_625)

    def test_y4m_becomes_what_its_header_says(self):
        raw = raw_pictures(1)
        rows = [
            (b"W16 H16 F25:1", {}),
            (b"W16 H16 F30000:1001 XCOLORRANGE=FULL", {"rate": 4, "signal": 1}),
            (b"W16 H16 F12500:1000 C420mpeg2 XCOLORRANGE=LIMITED", {"rate": 10}),
            (b"W16 H12 F24:1 C422", {"rate": 2, "chroma": 1, "height": 12}),
            (b"W16 H8 F24:1 C444", {"rate": 2, "chroma": 0, "height": 8}),
            (b"W16 H16 F2997:125", {"rate": 1}),
        ]
        for header, values in rows:
            self.write("in.y4m", y4m(raw, header))
            self.assertEqual(self.encode()[0], 0)
            self.assertEqual(self.read("out.drc"), self.expected(raw, **values), header)

    def test_by_pipes(self):
        raw = raw_pictures(2)
        done = self.dirac("encode", "-", "-o", "-", *QUICK, data=y4m(raw))
        self.assertEqual((done.status, done.out), (0, self.expected(raw)))

    def test_raw_pictures(self):
        raw = raw_pictures(2, chroma=1)
        self.write("in.yuv", raw)
        words = ["--raw", "16x16", "--chroma", "4:2:2", "--rate", "50", "--signal", "full", *QUICK, "--index", "3"]
        self.assertEqual(self.dirac("encode", "in.yuv", "-o", "out.drc", *words).status, 0)
        self.assertEqual(self.read("out.drc"), self.expected(raw, chroma=1, rate=6, signal=1, index=3))

    def test_aspect_interlacing_and_own_rates_stand_in_the_headers_alone(self):
        raw = raw_pictures(3)
        rows = [
            (b"W16 H16 F25:1 A16:11", 0, {"aspect": Fraction(16, 11)}, []),
            (b"W16 H16 F25:1 A7:5 It", 8, {"aspect": Fraction(7, 5)}, []),
            (b"W16 H16 F25:1 Ib", 7, {"aspect": Fraction(1)}, []),
            (b"W16 H16 F15:1 It", 8, {"rate": Fraction(15)}, ["--own-rate"]),
        ]
        for header, base, values, words in rows:
            self.write("in.y4m", y4m(raw, header))
            self.assertEqual(self.encode("--gop", "2", *words)[0], 0)
            plain = self.expected(raw, base=base, chroma=2, gop=2)
            found, other = support.units_of(self.read("out.drc")), support.units_of(plain)
            self.assertEqual(
                [unit.payload for unit in found if unit.code], [unit.payload for unit in other if unit.code]
            )
            self.assertEqual([unit.code for unit in found], [unit.code for unit in other])
            headers = {unit.payload for unit in found if unit.code == 0}
            self.assertEqual(len(headers), 1)
            read = sequence.read_header(headers.pop())
            self.assertEqual({name: getattr(read, name) for name in values}, values, header)
            self.assertEqual(read.is_interlaced, b" I" in header)
            self.assertEqual(shown(self.read("out.drc")), shown(plain))

    def test_colours_stand_in_the_headers(self):
        self.write("in.y4m", y4m(raw_pictures(1)))
        for words, colour in (([], formats.SDTV_625), (["--matrix", "709"], None), (["--base", "2"], None)):
            self.assertEqual(self.encode(*words)[0], 0)
            self.assertEqual(header_of(self.read("out.drc")).colour, colour, words)
        self.assertEqual(self.encode("--base", "2", "--matrix", "709")[0], 0)
        self.assertEqual(header_of(self.read("out.drc")).colour, formats.HDTV)

    def test_colours_by_the_size(self):
        for size, colour in (
            ((720, 576), formats.SDTV_625),
            ((720, 480), formats.SDTV_525),
            ((1024, 576), formats.SDTV_625),
            ((1280, 544), formats.HDTV),
            ((640, 720), formats.HDTV),
        ):
            self.assertEqual(formats.usual_colour(formats.Video(*size, 2, 25)), colour, size)

    @unittest.skipUnless(support.has("ffmpeg"), "no ffmpeg")
    def test_colours_of_a_clip_go_through(self):
        self.write("in.y4m", y4m(raw_pictures(2)))
        rows = [("bt709", "yuv420p", 3), ("smpte170m", "yuv420p", 1), ("bt470bg", "yuv420p", 2), ("bt709", "gbrp", 2)]
        for space, pixels, colour in rows:
            words = ["-colorspace", space] if pixels != "gbrp" else []
            words = ["-pix_fmt", pixels, *words, "-c:v", "ffv1", "in.mkv"]
            words = ["ffmpeg", "-v", "error", "-y", "-i", "in.y4m", *words]
            self.assertEqual(support.run(words, folder=self.folder).status, 0)
            self.assertEqual(self.dirac("encode", "in.mkv", "-o", "out.drc", *QUICK).status, 0)
            self.assertEqual(header_of(self.read("out.drc")).known_colour(), colour, (space, pixels))
            for name in ("out.mkv", "out.mp4"):
                self.assertEqual(self.dirac("decode", "out.drc", "-o", name).status, 0)
                words = ["ffprobe", "-v", "error", "-show_entries", "stream=color_space", "-of", "csv=p=0", name]
                told = support.run(words, folder=self.folder).out.decode().strip()
                self.assertEqual(told, formats.FFMPEG_COLOURS[colour][0], name)

    def test_refused_clips(self):
        rows = [
            (y4m(b"", b"W16 H16 F15:1"), "nearest: --rate=15000/1001 or --rate=24000/1001"),
            (y4m(b"", b"W16 H16"), "say it, as --rate=25"),
            (y4m(b"", b"W15 H16 F25:1"), "crop=14:16"),
            (y4m(b"", b"W16 H16 F25:1 C420p10"), "420p10"),
            (y4m(raw_pictures(1))[:-1], "picture 0 of the y4m stream has 383 of 384 bytes"),
            (b"", "is empty"),
        ]
        for data, text in rows:
            self.write("in.y4m", data)
            status, err = self.encode()
            self.assertNotEqual(status, 0)
            self.assertEqual((err.count("\n"), text in err, self.names()), (1, True, ["in.y4m"]), err)

    def test_a_base_with_the_other_field_first(self):
        self.write("in.y4m", y4m(raw_pictures(1), b"W16 H16 F25:1 It"))
        status, err = self.encode("--base", "7")
        self.assertEqual(status, 2)
        self.assertIn("base 7 says bottom field first", err)
        self.assertEqual(self.encode("--base", "11")[0], 0)

    def test_words_that_do_not_go_together(self):
        self.write("in.y4m", y4m(raw_pictures(1)))
        self.write("in.drc", encoded(1))
        self.write("in.yuv", raw_pictures(1))
        rows = [
            ("in.y4m", ["--raw", "16x16"], "--raw is for raw pictures"),
            ("in.drc", ["--chroma", "4:4:4"], "make y4m of it first"),
            ("in.drc", ["--filter", "hflip"], "make y4m of it first"),
            ("in.yuv", ["--raw", "16x16", "--rate", "25", "--filter", "hflip"], "make y4m of it first"),
        ]
        for name, words, text in rows:
            done = self.dirac("encode", name, "-o", "out.drc", *words)
            self.assertEqual((done.status, text in done.err), (2, True), done.err)

    def test_a_clip_that_breaks_off_keeps_its_whole_pictures(self):
        raw = raw_pictures(3)
        self.write("in.y4m", y4m(raw)[:-1])
        status, err = self.encode()
        self.assertEqual((status, self.read("out.drc")), (1, self.expected(raw[:768])))
        self.assertIn("picture 2 of the y4m stream has 383 of 384 bytes; out.drc has the 2 pictures before", err)

    def test_a_wrong_setting_is_named(self):
        self.write("in.y4m", y4m(raw_pictures(1)))
        status, err = self.encode("--index", "100")
        self.assertEqual((status, self.names()), (3, ["in.y4m"]))
        self.assertIn("index=100 is out of its range", err)

    def test_frames_and_psnr(self):
        raw = raw_pictures(4)
        self.write("in.y4m", y4m(raw))
        status, err = self.encode("--frames", "2", "--psnr", "--index", "30")
        stream = self.read("out.drc")
        self.assertEqual((status, stream), (0, self.expected(raw[:768], index=30)))
        measure = psnr.Measure(formats.Video(16, 16, 2, None))
        for number, picture in enumerate(shown(stream)):
            measure.add(raw[384 * number : 384 * number + 384], picture)
        self.assertIn(f"PSNR {psnr.line(measure.all())}", err)
        self.assertIn("PSNR Y same  U same  V same", self.encode("--psnr", "--index=0")[1])

    def test_fields_there_and_back(self):
        raw = raw_pictures(2)
        for order, base in ((b"It", 8), (b"Ib", 7), (b"Ip", 0)):
            self.write("in.y4m", y4m(raw, b"W16 H16 F25:1 " + order))
            self.assertEqual(self.encode("--fields", "--index=0")[0], 0)
            header = sequence.read_header(support.units_of(self.read("out.drc"))[0].payload)
            self.assertEqual((header.base, header.has_fields), (base, True))
            self.assertEqual(len(shown(self.read("out.drc"))), 4)
            self.assertEqual(self.dirac("decode", "out.drc", "-o", "back.yuv").status, 0)
            self.assertEqual(self.read("back.yuv"), raw, order)

    def test_a_stream_as_a_clip(self):
        self.write("in.drc", encoded(3, rate=5, signal=2))
        done = self.dirac("encode", "in.drc", "-o", "out.drc", *QUICK, "--index=0")
        self.assertEqual(done.status, 0, done.err)
        self.assertEqual(shown(self.read("out.drc")), shown(self.read("in.drc")))

    @unittest.skipUnless(support.has("ffmpeg"), "no ffmpeg")
    def test_any_clip_by_ffmpeg(self):
        self.write("in.y4m", y4m(raw_pictures(4), b"W16 H16 F24:1 A4:3"))
        words = ["ffmpeg", "-v", "error", "-i", "in.y4m", "-c:v", "ffv1", "in.mkv"]
        self.assertEqual(support.run(words, folder=self.folder).status, 0)
        self.assertEqual(self.dirac("encode", "in.mkv", "-o", "out.drc", *QUICK, "--index=0").status, 0)
        self.assertEqual(b"".join(shown(self.read("out.drc"))), raw_pictures(4))
        header = sequence.read_header(support.units_of(self.read("out.drc"))[0].payload)
        self.assertEqual((header.rate, header.aspect, header.signal), (24, Fraction(4, 3), formats.LIMITED_RANGE))
        by_pipe = self.dirac("encode", "-", "-o", "-", *QUICK, "--index=0", data=self.read("in.mkv"))
        self.assertEqual((by_pipe.status, by_pipe.out), (0, self.read("out.drc")))
        words = ["--chroma", "4:4:4", "--filter", "scale=8:8,fps=25"]
        self.assertEqual(self.dirac("encode", "in.mkv", "-o", "out.drc", *QUICK, *words).status, 0)
        header = sequence.read_header(support.units_of(self.read("out.drc"))[0].payload)
        self.assertEqual((header.width, header.height, header.chroma, header.rate), (8, 8, 0, 25))

    @unittest.skipUnless(support.has("ffprobe"), "no ffprobe")
    def test_ffprobe_reads_what_the_headers_say(self):
        self.write("in.y4m", y4m(raw_pictures(1), b"W16 H16 F15:1 A16:11 XCOLORRANGE=FULL"))
        self.assertEqual(self.encode("--own-rate")[0], 0)
        words = ["ffprobe", "-v", "error", "-show_entries", "stream=r_frame_rate,sample_aspect_ratio,color_range"]
        told = support.run([*words, "-of", "csv=p=0", "out.drc"], folder=self.folder).out.decode()
        self.assertEqual(sorted(told.strip().split(",")), ["15/1", "16:11", "pc"])


class Decode(InFolder):
    def test_y4m_raw_and_sums(self):
        stream = self.write("in.drc", encoded(3, rate=5, signal=2))
        raw = b"".join(shown(self.read(stream)))
        self.assertEqual(self.dirac("decode", stream, "-o", "out.y4m").status, 0)
        line = b"W16 H16 F30:1 Ip A1:1 C420jpeg XCOLORRANGE=LIMITED"
        self.assertEqual(self.read("out.y4m"), y4m(raw, line))
        self.assertEqual(self.dirac("decode", stream, "-o", "-").out, self.read("out.y4m"))
        self.dirac("decode", "-", "-o", "out.yuv", "--frames", "2", data=self.read(stream))
        self.assertEqual(self.read("out.yuv"), raw[:768])
        sums = self.dirac("decode", stream, "--md5").out
        self.assertEqual(sums, support.script("tools/md5_of_pictures.py", "16", "16", data=raw).out)

    def test_png(self):
        self.write("in.drc", encoded(2))
        self.assertEqual(self.dirac("decode", "in.drc", "-o", "shot.png").status, 0)
        self.assertEqual(self.names(), ["in.drc", "shot-0000.png", "shot-0001.png"])
        self.assertTrue(self.read("shot-0001.png").startswith(b"\x89PNG"))

    def test_pixels_by_range_and_matrix(self):
        # red of both matrices in both ranges: Y, U and V by their formulas, rounded
        rows = [((81, 90, 240), formats.LIMITED_RANGE, 2), ((63, 102, 240), formats.LIMITED_RANGE, 3)]
        rows += [((76, 85, 255), formats.FULL_RANGE, 1), ((54, 99, 255), formats.FULL_RANGE, 4)]
        for raw, signal, colour in rows:
            video = formats.Video(1, 1, 0, None, signal=signal, colour=colour)
            red, green, blue = next(png.rgb_rows(bytes(raw), video))
            self.assertTrue(red >= 253 and green <= 2 and blue <= 2, (raw, red, green, blue))

    def test_what_was_shown_before_a_fault_is_kept(self):
        done = self.dirac("decode", "-", "-o", "out.yuv", data=conformance("delivery_before_a_fault"))
        self.assertEqual(done.status, 4)
        self.assertIn("MissingReference", done.err)
        expected = decoder.decode(conformance("delivery_before_a_fault")).pictures
        self.assertEqual(self.read("out.yuv"), b"".join(expected))

    def test_no_stream_at_all(self):
        for data, status, text in (
            (b"no stream at all", 4, "BadPrefix"),
            (b"", 1, "is empty"),
            (b"YUV4MPEG2 ", 1, "y4m"),
        ):
            done = self.dirac("decode", "-", "-o", "out.y4m", data=data)
            self.assertEqual((done.status, text in done.err, self.names()), (status, True, []), done.err)

    def test_another_size_on_the_way(self):
        done = self.dirac("decode", "-", "-o", "out.y4m", data=conformance("sequences_of_different_kinds"))
        self.assertEqual(done.status, 1)
        self.assertIn("the pictures change from number", done.err)
        stream = conformance("sequences_of_different_kinds")
        done = self.dirac("decode", "-", "--md5", data=stream)
        self.assertEqual((done.status, done.out.count(b"\n")), (0, len(shown(stream)) + 1))

    def test_all_conformance_streams_that_keep_their_size(self):
        for name in ("fields", "other_units_and_repeated_headers"):
            done = self.dirac("decode", "-", "--fields", "--md5", data=conformance(name))
            row = next(
                row
                for row in (TOP / "conformance" / "expected.tsv").read_text().splitlines()
                if row.startswith(f"{name}\t")
            )
            self.assertEqual(done.out.split()[-1].decode(), row.split("\t")[3], name)

    def test_weaving(self):
        video = formats.Video(2, 2, 0, None)
        self.assertEqual(decoding.weave((b"aabbccddeeff", b"AABBCCDDEEFF"), video), b"aaAAbbBBccCCddDDeeEEffFF")

    @unittest.skipUnless(support.has("ffmpeg"), "no ffmpeg")
    def test_containers(self):
        stream = encoded(5, gop=4)
        self.write("in.drc", stream)
        words = ["ffmpeg", "-v", "error", "-r", "25", "-f", "dirac", "-i", "in.drc", "-c", "copy"]
        for name in ("in.mkv", "in.avi", "in.mov", "in.mp4", "in.ts", "in.nut", "in.asf"):
            self.assertEqual(support.run([*words, name], folder=self.folder).status, 0)
            done = self.dirac("decode", name, "-o", "out.yuv")
            self.assertEqual((done.status, self.read("out.yuv")), (0, b"".join(shown(stream))), done.err)
        for name in ("in.m2ts", "in.mpg"):
            self.assertEqual(support.run([*words, name], folder=self.folder).status, 0)
            done = self.dirac("info", name)
            self.assertEqual((done.status, done.err.count("\n")), (1, 1))
            self.assertIn("without a Dirac stream", done.err)
        self.assertEqual(self.dirac("decode", "-", "-o", "out.yuv", data=self.read("in.mkv")).status, 0)
        self.assertEqual(self.dirac("decode", "in.drc", "-o", "out.mkv").status, 0)
        done = self.dirac("info", "out.mkv")
        self.assertEqual(done.status, 1)
        self.assertIn("without a Dirac stream", done.err)


class Compare(InFolder):
    def test_decibels(self):
        measure = psnr.Measure(formats.Video(4, 4, 0, None))
        one = bytes(48)
        other = bytes([1] * 16 + [0] * 16 + [2] * 8 + [0] * 8)
        values = measure.add(one, other)
        # 10 log10(255^2 / 1), nothing, 10 log10(255^2 / 2)
        self.assertEqual([psnr.text(value) for value in values], ["48.13", "same", "45.12"])
        measure.add(one, one)
        self.assertEqual(psnr.line(measure.all()), "Y 51.14  U same  V 48.13")
        self.assertEqual(psnr.squares(bytes([0, 255, 7]), bytes([255, 0, 9])), 2 * 255 * 255 + 4)

    def test_clips(self):
        self.write("one.y4m", y4m(raw_pictures(3)))
        self.write("two.drc", encoded(3, index=0))
        done = self.dirac("compare", "one.y4m", "two.drc")
        self.assertEqual((done.status, done.err), (0, ""))
        self.assertEqual(done.out.decode().splitlines()[-1], "   all  Y same  U same  V same")
        self.write("short.yuv", raw_pictures(2))
        done = self.dirac("compare", "short.yuv", "two.drc", "--raw", "16x16")
        self.assertEqual((done.status, done.out.count(b"\n")), (1, 3))
        self.assertIn("short.yuv has 2 pictures, two.drc has 3", done.err)
        self.write("other.drc", encoded(1, width=32))
        self.assertIn("16 by 16", self.dirac("compare", "two.drc", "other.drc").err)


class Edit(InFolder):
    @unittest.skipUnless(os.access(support.PROVED, os.X_OK), "the proved program isn't built")
    def test_cut_and_join(self):
        tool = {"DIRAC_TOOL": support.PROVED}
        stream = encoded(9, gop=3)
        self.write("in.drc", stream)
        self.assertEqual(self.dirac("cut", "in.drc", "--to", "1", "-o", "a.drc", **tool).status, 0)
        done = self.dirac("cut", "in.drc", "--from", "0.2s", "-o", "b.drc", **tool)
        self.assertEqual((done.status, done.err), (0, "dirac: --from 0.2s is point 1\n"))
        self.assertEqual(shown(self.read("b.drc")), shown(stream)[3:])
        self.assertEqual(self.dirac("join", "a.drc", "b.drc", "-o", "c.drc", **tool).status, 0)
        self.assertEqual(shown(self.read("c.drc")), shown(stream))
        done = self.dirac("cut", "in.drc", "--from", "7", "-o", "d.drc", **tool)
        self.assertEqual((done.status, "dirac info" in done.err, "d.drc" in self.names()), (13, True, False))


class Matroska(InFolder):
    def test_times_in_the_order_of_coding(self):
        coded = [0, 4, 1, 2, 3, 8, 5, 6, 7, 12, 11, 10, 9]
        stream = conformance("delivery_in_another_order")
        rate = header_of(stream).rate
        for data, numbers in ((stream, coded), (stream[:-13], coded), (stream * 2, coded + [13 + n for n in coded])):
            self.assertEqual(matroska.times_of(io.BytesIO(data)), [number / rate for number in numbers])
        times = matroska.times_of(io.BytesIO(encoded(4, fields=1, rate=3)))
        self.assertEqual(sorted(times), [Fraction(n, 50) for n in range(4)])
        with self.assertRaises(Refusal):
            matroska.times_of(io.BytesIO(stream[:100]))

    def test_without_mkvmerge(self):
        self.write("in.drc", encoded(1))
        done = self.dirac("wrap", "in.drc", "-o", "out.mkv", PATH="/nowhere")
        self.assertEqual((done.status, self.names()), (1, ["in.drc"]))
        self.assertIn("apt-get install mkvtoolnix", done.err)

    @unittest.skipUnless(support.has("mkvmerge") and support.has("ffprobe"), "no mkvmerge or ffprobe")
    def test_times_and_bytes(self):
        stream = encoded(9, gop=8, rate=3)
        self.write("in.drc", stream)
        self.assertEqual(self.dirac("wrap", "in.drc", "-o", "out.mkv").status, 0)
        self.assertEqual(self.names(), ["in.drc", "out.mkv"])
        words = ["ffprobe", "-v", "error", "-show_entries", "frame=pts_time", "-of", "csv=p=0", "out.mkv"]
        times = support.run(words, folder=self.folder).out.decode().split()
        self.assertEqual([float(time.strip(",")) for time in times], [n / 25 for n in range(9)])
        words = ["ffmpeg", "-v", "fatal", "-i", "out.mkv", "-c", "copy", "-f", "dirac", "-"]
        self.assertEqual(support.run(words, folder=self.folder).out, stream)
        done = self.dirac("info", "out.mkv")
        self.assertEqual(done.status, 0, done.err)
        self.write("in.y4m", y4m(raw_pictures(3)))
        self.assertEqual(self.dirac("encode", "in.y4m", "-o", "new.mkv", *QUICK, "--index=0").status, 0)
        self.assertEqual(self.dirac("decode", "new.mkv", "-o", "new.yuv").status, 0)
        self.assertEqual(self.read("new.yuv"), raw_pictures(3))

    @unittest.skipUnless(support.has("mkvmerge"), "no mkvmerge")
    def test_streams_that_do_not_go_in(self):
        no_picture = support.stream_of([(0, support.units_of(encoded(1))[0].payload), (0x10, b"")])
        for data, text in ((conformance("fault_bad_prefix"), "dirac repair"), (no_picture, "no picture")):
            self.write("in.drc", data)
            done = self.dirac("wrap", "in.drc", "-o", "out.mkv")
            self.assertEqual((done.status, self.names(), done.err.count("\n")), (1, ["in.drc"], 1))
            self.assertIn(text, done.err)


class Terminal(io.StringIO):
    def isatty(self):
        return True


class Parts(unittest.TestCase):
    def test_progress(self):
        times = iter([0.0, 10.0, 10.0, 10.1, 20.0, 20.0])
        shown_on = Terminal()
        bar = progress.Progress(100, shown_on, lambda: next(times))
        bar.show(25, 1500)
        bar.show(26, 1600)
        bar.show(50, 2_000_000)
        lines = [line.strip() for line in shown_on.getvalue().split("\r")[1:]]
        first = "[######------------------] 25 of 100 pictures, 2.5 a second, 1.5 kB, 0:30 left"
        second = "[############------------] 50 of 100 pictures, 2.5 a second, 2 MB, 0:20 left"
        self.assertEqual(lines, [first, second])

    def test_no_progress_but_on_a_terminal(self):
        shown_on = io.StringIO()
        progress.Progress(3, shown_on).show(1, 1)
        self.assertEqual(shown_on.getvalue(), "")

    def test_a_screen_that_is_not_there(self):
        for values, has_one in (({}, False), ({"DISPLAY": ":1"}, True), ({"WAYLAND_DISPLAY": "wayland-0"}, True)):
            with mock.patch.dict(os.environ, values, clear=True), mock.patch.object(sys, "platform", "linux"):
                self.assertEqual(play.has_screen(), has_one)

    def test_players_are_told_the_matrix(self):
        rows = [(2, "colorspace=bt470bg:", "bt.601"), (3, "colorspace=bt709:", "bt.709"), (None, "", "")]
        for colour, for_ffplay, for_mpv in rows:
            video = formats.Video(16, 16, 2, 25, colour=colour)
            for player, text in (("ffplay", for_ffplay), ("mpv", for_mpv)):
                words = play.command_for(player, "a name", video)
                self.assertEqual((words[0], words[-1]), (player, "-"))
                self.assertIn(text, " ".join(words))
                self.assertEqual(any("color" in word for word in words), colour is not None)
        video = formats.Video(16, 16, 2, 25, signal=formats.FULL_RANGE, colour=formats.HDTV)
        self.assertIn("scale=out_range=limited", " ".join(play.command_for("ffplay", "a name", video)))

    def test_answers_of_the_program(self):
        rows = [
            ("fault unit=3 at=46 cause=BadPrefix", "fault in unit 3 at byte 46: BadPrefix"),
            ("fault unit=0 at=13 cause=Depth8", "isn't of the profile"),
            ("fault unit=0 at=13 cause=Size", "853 by 480"),
            ("fault unit=2 at=99 cause=UnitShort", "dirac repair --decode"),
            ("bad setting width=7", "width=7 is out of its range"),
            ("no such point: 9", "dirac info"),
            ("open cut: unit 4", "unit 4 refers"),
            ("no memory", "not enough memory"),
            ("", "without a word"),
        ]
        for line, text in rows:
            self.assertIn(text, program.explained(line))
        self.assertEqual(program.refusal("x", -9, "").status, 1)
        self.assertIsNone(program.refusal("x", 0, "pictures=1 references=1\n"))

    def test_as_many_workers_decode_as_there_are_processors(self):
        rows = [({3}, ["decode"]), ({0, 1}, ["pardecode", "--workers=2"]), (range(96), ["pardecode", "--workers=64"])]
        for processors, words in rows:
            with mock.patch.object(program.os, "sched_getaffinity", return_value=processors, create=True):
                with mock.patch.object(program, "start") as start:
                    program.start_decoder([b""], False)
            start.assert_called_once_with(words, [b""])

    def test_the_program_is_started_with_what_is_said_of_memory(self):
        words = ["-c", "import os; print(os.environ['GLIBC_TUNABLES'], end='')"]
        for own in ({}, {"GLIBC_TUNABLES": "glibc.malloc.tcache_count=1"}):
            with mock.patch.dict(os.environ, {"DIRAC_TOOL": sys.executable}):
                os.environ.pop("GLIBC_TUNABLES", None)
                os.environ.update(own)
                started = program.start(words, [])
                self.assertEqual(started.read().decode(), {**program.memory_for(words), **own}["GLIBC_TUNABLES"])
                self.assertEqual(started.finish(), (0, ""))

    def test_settings_of_the_program_are_those_of_the_encoder(self):
        names = [name for name, _, _ in encoder.SETTING_RANGES]
        given = {"chroma", "width", "height", "rate", "signal", "fields", "pictures"}
        self.assertEqual(set(encode.PASSED) | given, set(names))

    def test_an_output_that_fails_leaves_nothing(self):
        with self.assertRaises(Refusal):
            outputs.Output("/no/such/folder/x")
        with outputs.Output("/dev/null") as output:
            output.write(b"x")
            output.keep()
        self.assertTrue(os.path.exists("/dev/null"))

    @unittest.skipUnless(os.path.exists("/dev/full"), "no /dev/full")
    def test_a_full_device(self):
        done = support.dirac("decode", "-", "-o", "/dev/full", data=encoded(1))
        self.assertEqual((done.status, done.err.count("\n")), (1, 1))
        self.assertIn("No space left", done.err)
        with open("/dev/full", "wb") as full:
            words = [sys.executable, TOP / "dirac", "info", MOVING]
            done = subprocess.run([str(word) for word in words], stdout=full, stderr=subprocess.PIPE)
        self.assertEqual((done.returncode, done.stderr), (1, b"dirac: No space left on device\n"))

    def test_rewriting_by_the_same_values_changes_no_byte(self):
        stream = encoded(5, gop=2)
        target = io.BytesIO()
        writer = units.UnitWriter(target)
        for unit in units.read_units(io.BytesIO(stream)):
            payload = unit.payload
            if unit.code == units.SEQUENCE_HEADER:
                payload = sequence.spell_header(sequence.read_header(payload))
            writer.write(unit.code, payload)
        self.assertEqual(target.getvalue(), stream)
