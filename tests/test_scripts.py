"""The scripts of tools, examples, bench and conformance."""
import ast
import os
import pathlib
import pty
import re
import shutil
import struct
import subprocess
import sys
import tempfile
import unittest
import zlib
from unittest import mock

from tests import support
from tests.support import TOP, InFolder, conformance, decoder, encoded, encoder, raw_pictures, script, shown

import check
import pictures as ball
import writer

sys.path.append(str(TOP / "tools"))
import check_documents

MOVING = TOP / "examples" / "moving.drc"
LONGEST_LINE = 120


def python_files():
    folders = ["tools", "tests", "examples", "bench", "conformance", "capi"]
    files = [path for folder in folders for path in sorted((TOP / folder).rglob("*.py"))]
    return [TOP / "dirac", *files]


class Files(unittest.TestCase):
    def test_all_are_python_3_9_with_a_first_line_that_says_what_for(self):
        for path in python_files():
            tree = ast.parse(path.read_text(), feature_version=(3, 9))
            self.assertTrue(ast.get_docstring(tree), path)

    def test_lines_are_short(self):
        # the table in conformance/README.md is made of that file's first lines of functions
        for path in python_files():
            if path.name != "make.py":
                self.assertLessEqual(max(map(len, path.read_text().splitlines())), LONGEST_LINE, path)

    def test_no_name_of_python_3_10_and_later(self):
        later = re.compile(r"\bitertools\.pairwise|\bpairwise\(|zip\([^)]*strict=|\bbit_count\(\)|\bimport tomllib")
        for path in python_files():
            if path != pathlib.Path(__file__).resolve():
                self.assertIsNone(later.search(path.read_text()), path)


class Y4mScripts(InFolder):
    def test_words_of_a_clip(self):
        rows = [
            (b"W16 H16 F25:1", "--width=16 --height=16 --chroma=2 --rate=3 --signal=2"),
            (b"W16 H8 F60000:1001 C422 XCOLORRANGE=FULL", "--width=16 --height=8 --chroma=1 --rate=7 --signal=1"),
            (b"W16 H8 F23976:1000 C444 XCOLORRANGE=LIMITED", "--width=16 --height=8 --chroma=0 --rate=1 --signal=2"),
        ]
        for header, words in rows:
            done = script("tools/y4m_to_raw.py", "--words", data=b"YUV4MPEG2 " + header + b"\n")
            self.assertEqual((done.status, done.out.decode(), done.err), (0, words + "\n", ""))

    def test_refused_clips(self):
        rows = [(b"W16 H16 F15:1", "nearest"), (b"W16 H16", "--rate=25"), (b"W16 H15 F25:1", "15"), (b"W16", "height")]
        for header, text in rows:
            done = script("tools/y4m_to_raw.py", data=b"YUV4MPEG2 " + header + b"\n")
            self.assertEqual((done.status, done.out, done.err.count("\n")), (1, b"", 1))
            self.assertIn(text, done.err)
        done = script("tools/y4m_to_raw.py", "--words", "--rate=12.5", data=b"YUV4MPEG2 W16 H16 F15:1\n")
        self.assertIn(b"--rate=10 ", done.out)
        self.assertEqual(script("tools/y4m_to_raw.py", "--help").status, 2)

    def test_a_pixel_aspect_is_told(self):
        done = script("tools/y4m_to_raw.py", data=b"YUV4MPEG2 W16 H16 F25:1 A12:11\n")
        self.assertIn("pixel aspect 12:11", done.err)

    def test_there_and_back(self):
        raw = raw_pictures(3)
        self.write("clip.drc", encoded(1, rate=9, signal=2))
        for words in (["16", "16", "2", "15000:1001"], ["16", "16"], ["clip.drc"]):
            y4m = support.run([sys.executable, TOP / "tools" / "raw_to_y4m.py", *words], raw, self.folder)
            self.assertEqual((y4m.status, y4m.out.count(b"FRAME\n")), (0, 3))
            self.assertEqual(script("tools/y4m_to_raw.py", data=y4m.out).out, raw)
        self.assertTrue(y4m.out.startswith(b"YUV4MPEG2 W16 H16 F15000:1001 Ip A1:1 C420jpeg XCOLORRANGE=LIMITED\n"))

    def test_raw_pictures_that_do_not_fit(self):
        for words, status in ((["16"], 1), (["16", "15"], 1), (["16", "16", "3"], 1), (["16", "x"], 2)):
            done = script("tools/raw_to_y4m.py", *words, data=raw_pictures(1))
            self.assertEqual((done.status, done.out, done.err.count("\n")), (status, b"", 1), words)
        done = script("tools/raw_to_y4m.py", "16", "16", data=raw_pictures(1)[:-1])
        self.assertEqual((done.status, "383 bytes are left over" in done.err), (1, True))

    def test_sums(self):
        done = script("tools/md5_of_pictures.py", "1", "1", "0", data=b"abcdef")
        # of "abc", "def" and both
        expected = "0 900150983cd24fb0d6963f7d28e17f72\n1 4ed9407630eb1000c0f6b63842defa7d\n"
        self.assertEqual(done.out.decode(), expected + "all e80b5017098950fc58aad83c8c14978e\n")
        self.assertEqual(script("tools/md5_of_pictures.py", "1", "1", "0", data=b"abcd").status, 1)


class Documents(unittest.TestCase):
    def test_commands_of_a_document(self):
        text = "```\n$ one < a \\\n    | two\nline\n$ three\n```\ntext\n```\npython3 x.py\nother\n./run y\n```\n"
        found = [one for block in check_documents.blocks(text) for one in check_documents.commands(block)]
        expected = [("one < a \\\n    | two", ["line"]), ("three", []), ("python3 x.py", None), ("./run y", None)]
        self.assertEqual(found, expected)

    def test_files_of_an_earlier_run(self):
        rows = [("ffmpeg -v error -i x.mkv x.yuv", "x.yuv"), ("ffmpeg -i x.mkv -f dirac - | cmp - x.drc", None)]
        for command, name in [*rows, ("./run list < x.drc", None), ("ffmpeg -i x.mkv -f rawvideo -", None)]:
            self.assertEqual(check_documents.asked_about(command), name, command)

    def test_commands_that_are_left_out(self):
        rows = [("./run list < x.drc", 0, 0), ("./dirac play x.drc", 1, 1), ("ffplay x.mkv", 1, 1)]
        for command, without, with_library in [*rows, ("python3 capi/check.py", 1, 0)]:
            found = [check_documents.is_left_out(command, has_library) for has_library in (False, True)]
            self.assertEqual(found, [bool(without), bool(with_library)], command)

    def test_the_program_is_built_where_no_source_is_newer(self):
        with tempfile.TemporaryDirectory() as name:
            top = pathlib.Path(name)
            source = top / "crates" / "a" / "src" / "lib.rt"
            program = top / "crates" / "dirac_tool" / "out" / "dirac_tool"
            for path, time in [(top / "crates.txt", 10), (source, 20), (program.parent / "later", 40), (program, 30)]:
                self.assertFalse(check_documents.is_built(top))
                path.parent.mkdir(parents=True, exist_ok=True)
                path.write_text("")
                os.utime(path, (time, time))
            self.assertTrue(check_documents.is_built(top))
            os.utime(source, (31, 31))
            self.assertFalse(check_documents.is_built(top))

    def test_times_of_a_container(self):
        even = [n / 25 for n in range(10)]
        self.assertIsNone(check_documents.wrong_times(even, 0.4))
        self.assertIsNone(check_documents.wrong_times([round(time, 3) for time in even], 0.44))
        self.assertIn("one time", check_documents.wrong_times([0.0] * 10, 0.04))
        self.assertIn("says 0.080 s", check_documents.wrong_times(even, 0.08))
        self.assertIn("apart", check_documents.wrong_times([*even, 2.0], 2.04))


def png_rows(data):
    """Width, height and rows of red, green and blue of a PNG as these programs write it."""
    place, packed, size = 8, b"", None
    while place < len(data):
        length, kind = struct.unpack(">I4s", data[place : place + 8])
        body = data[place + 8 : place + 8 + length]
        assert struct.unpack(">I", data[place + 8 + length : place + 12 + length])[0] == zlib.crc32(kind + body)
        size = struct.unpack(">II", body[:8]) if kind == b"IHDR" else size
        packed += body if kind == b"IDAT" else b""
        place += 12 + length
    rows, step = zlib.decompress(packed), 3 * size[0] + 1
    return size, [rows[n + 1 : n + step] for n in range(0, len(rows), step)]


class Examples(InFolder):
    def test_a_look(self):
        grey = bytes([128] * 384)
        stream = self.folder / "grey.drc"
        stream.write_bytes(encoded(2, grey * 2))
        done = support.run([sys.executable, TOP / "examples" / "look.py", "grey.drc"], b"", self.folder)
        self.assertEqual((done.status, done.out), (0, b"grey.png: 2 pictures of 16 by 16\n"), done.err)
        (width, height), rows = png_rows(self.read("grey.png"))
        self.assertEqual((width, height, len(rows)), (36, 16, 16))
        self.assertEqual({bytes(row) for row in rows}, {b"\x80" * 108})

    def test_colours_of_both_ranges(self):
        # white of the limited range is 235, of the full one 255; a colour without light has no other
        for signal, luma in ((1, 255), (2, 235)):
            raw = bytes([luma] * 256 + [128] * 128)
            self.write("white.drc", encoded(1, raw, index=0, signal=signal))
            support.run([sys.executable, TOP / "examples" / "look.py", "white.drc"], b"", self.folder)
            self.assertEqual(set(png_rows(self.read("white.png"))[1][0]), {255})

    def test_a_look_at_no_stream(self):
        for data, status in ((b"RIFF", 1), (conformance("fault_bad_prefix"), 4)):
            self.write("x.drc", data)
            done = support.run([sys.executable, TOP / "examples" / "look.py", "x.drc"], b"", self.folder)
            self.assertEqual((done.status, done.err.count("\n"), self.names()), (status, 1, ["x.drc"]))

    def test_the_ball(self):
        picture = ball.planes(0)
        self.assertEqual(len(picture), 176 * 144 * 3 // 2)
        self.assertEqual(script("examples/pictures.py", "1").out, picture)

    def test_moving_is_an_encoding_of_the_ball(self):
        units = support.units_of(MOVING.read_bytes())
        self.assertEqual([unit.code for unit in units], 4 * [0x00, 0x0C] + [0x10])
        settings = encoder.default_settings(2) | {"index": 16, "gop": 1}
        self.assertEqual(units[0].payload, encoder.sequence_header(settings))
        planes = encoder.raw_planes(ball.planes(0), decoder.plane_sizes(encoder.sequence_of(settings)))
        planned = encoder.Planned(0, 0x0C, [], None)
        self.assertEqual(units[1].payload, encoder.picture_payload(settings, planned, planes, []))


class Conformance(unittest.TestCase):
    def test_check_finds_agreement_and_difference(self):
        plain = [sys.executable, TOP / "bench" / "reference" / "decode.py"]
        done = script("conformance/check.py", "--only=fault_s", *plain)
        self.assertEqual((done.status, done.out.decode()), (0, "6 of 6 streams agree\n"))
        done = script("conformance/check.py", "--only=fault_siz", sys.executable, "-c", "")
        self.assertEqual((done.status, done.out.count(b"DIFFERS")), (1, 3))
        self.assertEqual(script("conformance/check.py", "no-such-command").status, 1)

    def test_the_plain_decoder_on_small_streams(self):
        rows = {row.stream: row for row in check.read_table()}
        for name in ("codeblock_indices", "sizes", "shapes_of_two_444", "fields"):
            decoded = decoder.decode(conformance(name))
            self.assertEqual(str(len(decoded.pictures)), rows[name].pictures)
            self.assertEqual(check.hashlib.md5(b"".join(decoded.pictures)).hexdigest(), rows[name].md5, name)

    def test_every_stream_has_a_row(self):
        names = {path.stem for path in (TOP / "conformance" / "streams").glob("*.drc")}
        self.assertEqual(names, {row.stream for row in check.read_table()})

    def test_shape_streams_are_those_of_the_tests(self):
        self.assertEqual(script("conformance/shapes.py", "--compare").status, 0)

    def test_both_writers_spell_the_same(self):
        # the writer of this folder and the plain encoder were written apart
        for value in (0, 1, 2, 5, -1, -7, 1000, 2**39 - 2):
            pair = [kind().signed(value).payload() for kind in (writer.Bits, encoder.BitWriter)]
            self.assertEqual(*pair)
        rows = [[3, 0, -1, 2], [0, 0, 5, -4]]
        for kind in ("LL", "HL", "LH", "HH"):
            band = decoder.Subband(4, 2, 7, [value for row in rows for value in row], (1, 1), [7])
            bits = encoder.BitWriter()
            encoder.write_subband(bits, kind, band, 0, None)
            block = writer.band_block(kind, rows, None, (1, 1))
            self.assertEqual(bits.payload(), writer.Bits().unsigned(len(block), 7).align().bytes(block).payload())

    def test_numbers_of_the_format(self):
        # the examples of docs/FORMAT.md
        spelt = {0: "1", 1: "001", 2: "011", 3: "00001", 5: "01001", -1: "0011"}
        for value, bits in spelt.items():
            self.assertEqual("".join(map(str, writer.Bits().signed(value).bits[: len(bits)])), bits)


class Reference(unittest.TestCase):
    def test_what_is_encoded_is_what_is_decoded(self):
        for values in (
            {},
            {"wavelet": 3, "chroma": 0},
            {"fields": 1, "chroma": 1, "between": 1},
            {"codeblocks": 3, "finer": 9},
        ):
            settings = encoder.default_settings(0) | support.QUICK | {"width": 16, "height": 16, "gop": 4} | values
            height = settings["height"] // (2 if settings["fields"] else 1)
            raw = raw_pictures(3, 16, height, settings["chroma"])
            for index in (0, 20):
                done = encoder.encode(settings | {"index": index}, raw)
                self.assertEqual(b"".join(shown(done.stream)), done.shown)
                self.assertEqual(done.shown == raw, index == 0, values)

    def test_header_bytes_of_the_document(self):
        rows = [
            ({"base": 0, "width": 8, "height": 8}, "6FC183083079"),
            ({"base": 8, "signal": 2}, "6F0605A0"),
            ({"base": 0, "width": 8, "height": 16, "fields": 1}, "6FC180C20C0784"),
        ]
        for values, spelt in rows:
            settings = encoder.default_settings(values["base"]) | values
            self.assertEqual(encoder.sequence_header(settings).hex().upper(), spelt)

    def test_plan_of_the_document(self):
        settings = encoder.default_settings(0) | {"gop": 14, "between": 3}
        plan = encoder.plan(14, settings)
        self.assertEqual([each.number for each in plan], [0, 4, 1, 2, 3, 8, 5, 6, 7, 12, 9, 10, 11, 13])
        self.assertEqual({each.number: each.retired for each in plan if each.retired is not None}, {12: 4, 13: 8})

    def test_commands(self):
        grey = script("bench/streams.py", "grey", "1").out
        self.assertEqual([unit.code for unit in support.units_of(grey)], [0x00, 0x08, 0x10])
        self.assertEqual(len(script("bench/streams.py", "raw", "2", "8", "4", "2").out), 96)
        self.assertEqual(script("bench/streams.py", "grey").status, 1)
        done = script("bench/reference/decode.py", data=conformance("fault_vlc"))
        self.assertEqual((done.status, len(done.out)), (4, 96))
        self.assertIn("fault unit=2 at=105 cause=Vlc", done.err)


class Wrapper(InFolder):
    """./run, with a program that only pretends to be one."""

    def setUp(self):
        super().setUp()
        out = self.folder / "crates" / "dirac_tool" / "out"
        out.mkdir(parents=True)
        self.write("crates.txt", b"dirac_tool:\n")
        shutil.copy(TOP / "run", self.folder)
        program = out / "dirac_tool"
        program.write_text("#!/bin/sh\necho $*\ncat\n")
        program.chmod(0o755)

    def run_on(self, data, *words, path=None):
        """What comes out of ./run on a file that holds these bytes, and what it says."""
        with open(self.folder / self.write("in", data), "rb") as file:
            words = ["bash", str(path or self.folder / "run"), *words]
            done = subprocess.run(words, stdin=file, capture_output=True, timeout=support.LONGEST_RUN)
        self.assertEqual(done.returncode, 0, done.stderr)
        return done.stdout, done.stderr.decode()

    def test_runs_the_program(self):
        self.assertEqual(self.run_on(b"BBCD", "decode"), (b"decode\nBBCD", ""))
        self.assertEqual(self.run_on(b"any bytes", "encode", "--width=8"), (b"encode --width=8\nany bytes", ""))
        self.assertEqual(self.run_on(b"", "list"), (b"list\n", ""))
        (self.folder / "link").symlink_to("run")
        self.assertEqual(self.run_on(b"BBCD", "list", path=self.folder / "link"), (b"list\nBBCD", ""))

    def test_sets_how_memory_is_taken(self):
        program = self.folder / "crates" / "dirac_tool" / "out" / "dirac_tool"
        program.write_text('#!/bin/sh\nprintf %s "$GLIBC_TUNABLES"\n')
        with mock.patch.dict(os.environ):
            os.environ.pop("GLIBC_TUNABLES", None)
            for command in ("list", "decode", "pardecode", "encode"):
                said = support.program.memory_for([command])["GLIBC_TUNABLES"]
                self.assertEqual(self.run_on(b"", command)[0].decode(), said)
            os.environ["GLIBC_TUNABLES"] = "glibc.malloc.tcache_count=1"
            self.assertEqual(self.run_on(b"", "list")[0], b"glibc.malloc.tcache_count=1")

    def test_hints(self):
        rows = [
            (b"", ["decode", "clip.drc"], "./run decode < clip.drc"),
            (b"YUV4MPEG2 W8 H8\n", ["encode", "--width=8"], "./dirac encode takes it"),
            (b"YUV4MPEG2 W8 H8\n", ["rate"], "is y4m"),
            (b"BBCD\0", ["encode"], "is a Dirac stream"),
            (b"\x1a\x45\xdf\xa3 Matroska", ["decode"], "./dirac opens containers"),
            (b"RIFF", ["cut", "--from=1"], "./dirac opens containers"),
        ]
        for data, words, text in rows:
            out, err = self.run_on(data, *words)
            self.assertEqual(out, " ".join(words).encode() + b"\n" + data, words)
            self.assertTrue(err.startswith("run: ") and err.count("\n") == 1, err)
            self.assertIn(text, err)

    def test_a_terminal(self):
        leader, follower = pty.openpty()
        words = ["bash", str(self.folder / "run"), "list"]
        with subprocess.Popen(words, stdin=follower, stdout=subprocess.PIPE, stderr=subprocess.PIPE) as command:
            os.close(follower)
            self.assertIn(b"waiting for bytes", command.stderr.readline())
            os.write(leader, b"\x04")
            self.assertEqual(command.stdout.readline(), b"list\n")
        os.close(leader)

    def test_help(self):
        for word in ("help", "-h", "--help"):
            done = support.run(["bash", TOP / "run", word])
            self.assertEqual((done.status, done.err), (0, ""))
            self.assertIn(b"docs/PROGRAM.md", done.out)
        done = support.run(["bash", TOP / "run"])
        self.assertEqual((done.status, done.out), (2, b""))
        self.assertIn("docs/PROGRAM.md", done.err)
