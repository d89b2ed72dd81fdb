"""The package's build backend (PEP 517): makes the wheel by Python's own library.

The shared object that `make -C capi` made goes into the wheel where it is there; the wheel is then one of this machine.
"""
import base64
import hashlib
import pathlib
import re
import sysconfig
import tarfile
import zipfile

FOLDER = pathlib.Path(__file__).resolve().parent
PACKAGE = FOLDER / "src" / "jevmutzal"
SHARED = FOLDER.parent / "out" / "libjevmutzal.so.1"
# when all files of an archive are said to be from, so that the same files make the same archive
TIME = (2020, 1, 1, 0, 0, 0)


def _said(name):
    """A word of pyproject.toml, for which Python 3.9 has no reader."""
    return re.search(rf'^{name} = "(.*)"$', (FOLDER / "pyproject.toml").read_text(), re.MULTILINE)[1]


def _stem():
    return f"{_said('name')}-{_said('version')}"


def _tag():
    platform = re.sub(r"[^\w]", "_", sysconfig.get_platform()) if SHARED.exists() else "any"
    return f"py3-none-{platform}"


def _metadata():
    lines = [("Metadata-Version", "2.1"), ("Name", _said("name")), ("Version", _said("version"))]
    lines += [("Summary", _said("description")), ("Requires-Python", _said("requires-python"))]
    lines += [("Provides-Extra", "arrays"), ("Requires-Dist", 'numpy; extra == "arrays"')]
    return "".join(f"{name}: {value}\n" for name, value in lines)


def _information():
    pure = "false" if SHARED.exists() else "true"
    wheel = f"Wheel-Version: 1.0\nGenerator: wheel_of_package\nRoot-Is-Purelib: {pure}\nTag: {_tag()}\n"
    return {"METADATA": _metadata(), "WHEEL": wheel}


def _files():
    """The files of the wheel: names and bytes."""
    for path in sorted(PACKAGE.iterdir()):
        if path.suffix == ".py" or path.name == "py.typed":
            yield f"{PACKAGE.name}/{path.name}", path.read_bytes()
    if SHARED.exists():
        yield f"{PACKAGE.name}/{SHARED.name}", SHARED.read_bytes()
    for name, text in _information().items():
        yield f"{_stem()}.dist-info/{name}", text.encode()


def _row(name, data):
    digest = base64.urlsafe_b64encode(hashlib.sha256(data).digest()).rstrip(b"=").decode()
    return f"{name},sha256={digest},{len(data)}\n"


def build_wheel(wheel_directory, config_settings=None, metadata_directory=None):
    name = f"{_stem()}-{_tag()}.whl"
    record = f"{_stem()}.dist-info/RECORD"
    files = list(_files())
    files.append((record, ("".join(_row(*file) for file in files) + f"{record},,\n").encode()))
    with zipfile.ZipFile(pathlib.Path(wheel_directory) / name, "w", zipfile.ZIP_DEFLATED) as wheel:
        for path, data in files:
            entry = zipfile.ZipInfo(path, TIME)
            entry.external_attr, entry.compress_type = 0o644 << 16, zipfile.ZIP_DEFLATED
            wheel.writestr(entry, data)
    return name


def prepare_metadata_for_build_wheel(metadata_directory, config_settings=None):
    folder = pathlib.Path(metadata_directory) / f"{_stem()}.dist-info"
    folder.mkdir()
    for name, text in _information().items():
        (folder / name).write_text(text)
    return folder.name


def build_sdist(sdist_directory, config_settings=None):
    name = f"{_stem()}.tar.gz"
    with tarfile.open(pathlib.Path(sdist_directory) / name, "w:gz") as archive:
        for path in ("pyproject.toml", "wheel_of_package.py", "README.md", "src/jevmutzal"):
            archive.add(FOLDER / path, f"{_stem()}/{path}", filter=lambda it: None if "__pycache__" in it.name else it)
    return name
