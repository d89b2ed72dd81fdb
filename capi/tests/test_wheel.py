"""The package's build backend: what stands in the wheel, with a shared object and without."""
import base64
import csv
import hashlib
import importlib.util
import io
import pathlib
import tarfile
import tempfile
import unittest
import zipfile
from unittest import mock

BACKEND = pathlib.Path(__file__).resolve().parent.parent / "python" / "wheel_of_package.py"
SPEC = importlib.util.spec_from_file_location("wheel_of_package", BACKEND)
backend = importlib.util.module_from_spec(SPEC)
SPEC.loader.exec_module(backend)
MODULES = {f"jevmutzal/{name}" for name in ("__init__.py", "_decoder.py", "_library.py", "py.typed")}


class Wheels(unittest.TestCase):
    def wheel(self, shared):
        """The wheel's name, and its files by their names."""
        with tempfile.TemporaryDirectory() as folder:
            path = pathlib.Path(folder) / "libjevmutzal.so.1"
            if shared is not None:
                path.write_bytes(shared)
            with mock.patch.object(backend, "SHARED", path):
                name = backend.build_wheel(folder)
            with zipfile.ZipFile(pathlib.Path(folder) / name) as wheel:
                return name, {it: wheel.read(it) for it in wheel.namelist()}

    def check_record(self, files):
        (record,) = [name for name in files if name.endswith("/RECORD")]
        rows = {name: (told, size) for name, told, size in csv.reader(io.StringIO(files[record].decode()))}
        self.assertEqual(set(rows), set(files))
        self.assertEqual(rows.pop(record), ("", ""))
        for name, (told, size) in rows.items():
            digest = base64.urlsafe_b64encode(hashlib.sha256(files[name]).digest()).rstrip(b"=").decode()
            self.assertEqual((told, size), (f"sha256={digest}", str(len(files[name]))), name)

    def test_without_a_shared_object(self):
        name, files = self.wheel(None)
        self.assertRegex(name, r"^jevmutzal-[\d.]+-py3-none-any\.whl$")
        self.assertEqual({it for it in files if ".dist-info/" not in it}, MODULES)
        self.check_record(files)

    def test_with_a_shared_object(self):
        name, files = self.wheel(b"shared")
        self.assertRegex(name, r"^jevmutzal-[\d.]+-py3-none-linux_\w+\.whl$")
        self.assertEqual(files["jevmutzal/libjevmutzal.so.1"], b"shared")
        (told,) = [data.decode() for it, data in files.items() if it.endswith("/WHEEL")]
        self.assertIn("Root-Is-Purelib: false\n", told)
        self.assertIn(f"Tag: {name.split('-', 2)[2][: -len('.whl')]}\n", told)
        self.check_record(files)

    def test_the_same_files_make_the_same_wheel(self):
        self.assertEqual(self.wheel(None), self.wheel(None))

    def test_source_archive(self):
        with tempfile.TemporaryDirectory() as folder:
            name = backend.build_sdist(folder)
            with tarfile.open(pathlib.Path(folder) / name) as archive:
                names = {it.partition("/")[2] for it in archive.getnames()}
        self.assertLessEqual({"pyproject.toml", "wheel_of_package.py", "src/jevmutzal/__init__.py"}, names)


if __name__ == "__main__":
    unittest.main()
