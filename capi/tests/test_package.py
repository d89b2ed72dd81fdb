"""The Python package over a stand-in for the shared object: no toolchain and no C compiler is asked."""
import io
import os
import pathlib
import pickle
import tempfile
import unittest
from fractions import Fraction
from unittest import mock

from stand_in import Scripted, Shown, c, jevmutzal

ROWS = ([b"abcd", b"efgh"], [b"ij"], [b"kl"])
PICTURE = Shown(7, *ROWS)
FORMAT = c.FormatFields(4, 2, 2, 1, 0, 3, 30000, 1001, 12, 11, 16, 219, 128, 224, 4, 2, 0, 0)


class Package(unittest.TestCase):
    def script(self, *answers, format=FORMAT):
        it = Scripted(answers, format)
        patched = mock.patch.object(c, "library", lambda: it)
        patched.start()
        self.addCleanup(patched.stop)
        return it


class Decoding(Package):
    def test_pictures_of_pieces(self):
        for size, pieces in ((1, [b"x", b"y", b"z"]), (2, [b"xy", b"z"]), (9, [b"xyz"])):
            it = self.script(*["needs"] * len(pieces), PICTURE, "end")
            found = list(jevmutzal.decode(io.BytesIO(b"xyz"), piece=size))
            self.assertEqual((it.sent, it.finished, it.open), (pieces, 1, 0))
            planes = [(picture.number, picture.planes) for picture in found]
            self.assertEqual(planes, [(7, (b"abcdefgh", b"ij", b"kl"))])

    def test_sources(self):
        with tempfile.TemporaryDirectory() as folder:
            path = pathlib.Path(folder) / "it.drc"
            path.write_bytes(b"xyz")
            for source in (path, str(path), b"xyz", bytearray(b"xyz"), memoryview(b"xyz"), io.BytesIO(b"xyz")):
                it = self.script("needs", "end")
                self.assertEqual(list(jevmutzal.decode(source)), [])
                self.assertEqual(it.sent, [b"xyz"])

    def test_an_empty_source_is_finished(self):
        for source in (b"", io.BytesIO()):
            it = self.script((0, 0, 1))
            with self.assertRaises(jevmutzal.Fault):
                list(jevmutzal.decode(source))
            self.assertEqual((it.sent, it.finished, it.open), ([], 1, 0))

    def test_a_fault_comes_behind_the_pictures(self):
        it, found = self.script(PICTURE, (3, 130, 2)), []
        with self.assertRaises(jevmutzal.Fault) as caught:
            found.extend(picture.number for picture in jevmutzal.decode(b"xyz"))
        fault = caught.exception
        self.assertEqual((fault.unit, fault.at, fault.cause), (3, 130, "Truncated"))
        self.assertEqual(str(fault), "Truncated in unit 3 at byte 130")
        self.assertEqual(it.open, 0)
        again = pickle.loads(pickle.dumps(fault))
        self.assertEqual((again.unit, again.at, again.cause), (3, 130, "Truncated"))

    def test_pictures_before_a_fault_are_given(self):
        self.script(PICTURE, PICTURE, (3, 130, 2))
        pictures = jevmutzal.decode(b"xyz")
        self.assertEqual([next(pictures).number, next(pictures).number], [7, 7])
        self.assertRaises(jevmutzal.Fault, next, pictures)

    def test_one_that_is_left_closes(self):
        it = self.script(PICTURE, PICTURE)
        pictures = jevmutzal.decode(b"xyz")
        next(pictures)
        self.assertEqual(it.open, 1)
        pictures.close()
        self.assertEqual(it.open, 0)

    def test_no_memory(self):
        for answer in (c.NO_MEMORY, c.STOPPED):
            it = self.script(answer)
            self.assertRaises(MemoryError, list, jevmutzal.decode(b"xyz"))
            self.assertEqual(it.open, 0)

    def test_a_piece_has_a_byte(self):
        self.script("end")
        self.assertRaises(ValueError, list, jevmutzal.decode(b"xyz", piece=0))


class OnePicture(Package):
    def test_what_it_says(self):
        self.script(PICTURE, "end")
        (picture,) = jevmutzal.decode(b"xyz")
        self.assertEqual((picture.width, picture.height, picture.chroma_width, picture.chroma_height), (4, 2, 2, 1))
        self.assertEqual((picture.y, picture.u, picture.v), picture.planes)
        self.assertEqual(picture.raw(), b"abcdefghijkl")
        form = picture.format
        self.assertEqual((form.width, form.height, form.chroma, form.base), (4, 2, "4:2:0", 3))
        self.assertEqual((form.interlaced, form.fields), (True, False))
        self.assertEqual((form.rate, form.aspect), (Fraction(30000, 1001), Fraction(12, 11)))
        self.assertEqual((form.range, form.clean), ((16, 219, 128, 224), (4, 2, 0, 0)))

    def test_ratios_that_nobody_knows(self):
        self.script(PICTURE, "end", format=c.FormatFields(4, 2, 2))
        (picture,) = jevmutzal.decode(b"xyz")
        self.assertEqual((picture.format.rate, picture.format.aspect), (None, None))

    def test_arrays(self):
        try:
            import numpy
        except ImportError:
            self.skipTest("numpy isn't here")
        self.script(PICTURE, "end")
        (picture,) = jevmutzal.decode(b"xyz")
        y, u, v = picture.arrays()
        self.assertEqual(([plane.shape for plane in (y, u, v)], y.dtype), ([(2, 4), (1, 2), (1, 2)], numpy.uint8))
        self.assertEqual((y[1, 2], v[0, 1], y.flags.writeable), (ord("g"), ord("l"), False))

    def test_arrays_without_numpy(self):
        self.script(PICTURE, "end")
        (picture,) = jevmutzal.decode(b"xyz")
        with mock.patch.dict("sys.modules", numpy=None):
            self.assertRaises(ImportError, picture.arrays)


class Misuse(Package):
    def test_closed(self):
        it = self.script("needs")
        decoder = jevmutzal.Decoder()
        decoder.close()
        decoder.close()
        self.assertEqual(it.open, 0)
        calls = (decoder.next, decoder.finish, decoder.format, lambda: decoder.send(b""))
        for call in (*calls, lambda: decoder.copy_plane(0, bytearray(8)), lambda: list(decoder.pictures())):
            self.assertRaisesRegex(ValueError, "closed", call)

    def test_one_that_is_forgotten_closes(self):
        it = self.script("needs")
        decoder = jevmutzal.Decoder()
        del decoder
        self.assertEqual(it.open, 0)

    def test_no_picture(self):
        self.script("needs", format=None)
        with jevmutzal.Decoder() as decoder:
            self.assertIsNone(decoder.format())
            self.assertRaisesRegex(ValueError, "no picture", decoder.copy_plane, 0, bytearray(8))
            self.assertIsNone(decoder.next())
            self.assertFalse(decoder.is_ended)

    def test_the_end(self):
        self.script("end")
        with jevmutzal.Decoder() as decoder:
            self.assertIsNone(decoder.next())
            self.assertTrue(decoder.is_ended)

    def test_finished(self):
        self.script("end")
        with jevmutzal.Decoder() as decoder:
            decoder.finish()
            decoder.finish()
            self.assertRaisesRegex(ValueError, "finish", decoder.send, b"xyz")

    def test_planes(self):
        self.script(PICTURE)
        with jevmutzal.Decoder() as decoder:
            decoder.next()
            out = bytearray(b"-" * 11)
            decoder.copy_plane(0, out, 6)
            self.assertEqual(out, b"abcd--efgh-")
            decoder.copy_plane(2, memoryview(out)[3:5])
            self.assertEqual(out, b"abckl-efgh-")
            for plane, room, stride in ((0, 8, 3), (0, 7, 4), (0, 0, 4), (3, 8, 4), (-1, 8, 4), (0, 8, -1)):
                self.assertRaises(ValueError, decoder.copy_plane, plane, bytearray(room), stride)
            self.assertRaises(TypeError, decoder.copy_plane, 0, b"01234567")


class Loading(unittest.TestCase):
    def setUp(self):
        c.library.cache_clear()
        self.addCleanup(c.library.cache_clear)

    def test_no_shared_object(self):
        with tempfile.TemporaryDirectory() as folder:
            for name in ("none.so", "text.so"):
                path = os.path.join(folder, name)
                if name == "text.so":
                    pathlib.Path(path).write_text("no shared object")
                with mock.patch.dict(os.environ, JEVMUTZAL_LIBRARY=path):
                    with self.assertRaisesRegex(jevmutzal.LibraryMissing, "make -C capi"):
                        jevmutzal.Decoder()

    def test_another_shared_object(self):
        with mock.patch.object(c, "_opened", object):
            self.assertRaisesRegex(jevmutzal.LibraryMissing, "isn't libjevmutzal", c.library)

    def test_another_version(self):
        functions = {name: mock.Mock(return_value=c.VERSION + 1) for name in c.FUNCTIONS}
        with mock.patch.object(c, "_opened", lambda: mock.Mock(**functions)):
            self.assertRaisesRegex(jevmutzal.LibraryMissing, "version 2", c.library)


if __name__ == "__main__":
    unittest.main()
