"""The header against all that repeats it: the package's structures and numbers, the list of exported names, the
versions, and the exports of the crate, of which nothing else checks that they are what C is told."""
import ctypes
import pathlib
import re
import unittest

from stand_in import c, jevmutzal

CAPI = pathlib.Path(__file__).resolve().parent.parent
CRATES = CAPI.parent / "crates"
CRATE = CRATES / "jevmutzal" / "src"
# a type of the header as the crate and as ctypes have it
CRATE_TYPES = {
    "uint32_t": "u32",
    "uint64_t": "u64",
    "int32_t": "i32",
    "size_t": "usize",
    "bool": "bool",
    "void *": "*mut u8",
}
PYTHON_TYPES = {
    "uint32_t": ctypes.c_uint32,
    "uint64_t": ctypes.c_uint64,
    "int32_t": ctypes.c_int32,
    "size_t": ctypes.c_size_t,
    "bool": ctypes.c_bool,
    "void *": ctypes.c_void_p,
    "void": None,
}
STRUCTURES = {"jev_decoder": "Handle", "jev_frame": "Frame", "jev_format": "Format"}


def without_comments(text):
    return re.sub(r"/\*.*?\*/", "", text, flags=re.DOTALL)


class Header:
    """What jevmutzal.h declares."""

    def __init__(self):
        text = without_comments((CAPI / "include" / "jevmutzal.h").read_text())
        self.answers = {name: int(value) for name, value in re.findall(r"\bJEV_(\w+) = (-?\d+)", text)}
        self.numbers = {name: int(value) for name, value in re.findall(r"#define JEV_(\w+) (\d+)\b", text)}
        self.structures = {}
        for body, name in re.findall(r"typedef struct \w+ \{(.*?)\} (\w+);", text, re.DOTALL):
            fields = re.findall(r"(\w+(?: \*)?)\s*\b([\w, ]+);", body)
            self.structures[name] = [(it, kind) for kind, names in fields for it in names.split(", ")]
        self.functions = {}
        for result, name, parameters in re.findall(r"^(\w+) (jev_\w+)\(([^)]*)\);", text, re.MULTILINE):
            words = [] if parameters == "void" else [self.parameter(it) for it in parameters.split(", ")]
            self.functions[name] = (result, words)

    @staticmethod
    def parameter(text):
        kind, star, name = re.fullmatch(r"(?:const )?(\w+) (\*?)(\w+)", text).groups()
        return name, f"{kind} *" if star else kind, text.startswith("const ")


HEADER = Header()


def names_of_causes():
    """The causes of faults in the order of their list."""
    text = (CRATES / "dirac_common" / "src" / "faults.rt").read_text()
    (body,) = re.findall(r"pub enum Cause \{(.*?)^\}", text, re.DOTALL | re.MULTILINE)
    return re.findall(r"^    (\w+),$", body, re.MULTILINE)


class ThePackage(unittest.TestCase):
    def test_answers(self):
        for name, value in HEADER.answers.items():
            self.assertEqual(getattr(c, name), value, name)

    def test_numbers(self):
        self.assertEqual(HEADER.numbers, {"VERSION": c.VERSION, "CAUSES": c.CAUSES, "CAUSE_ROOM": c.CAUSE_ROOM})

    def test_structures(self):
        ours = {"jev_decoder": c.Handle, "jev_frame": c.Frame, "jev_format": c.FormatFields}
        self.assertEqual(set(HEADER.structures), set(ours))
        for name, fields in HEADER.structures.items():
            self.assertEqual([(it, PYTHON_TYPES[kind]) for it, kind in fields], ours[name]._fields_, name)

    def test_functions(self):
        self.assertEqual(set(HEADER.functions), set(c.FUNCTIONS))
        pointers = {"jev_decoder *": c.Handle, "jev_frame *": c.Frame, "jev_format *": c.FormatFields}
        for name, (result, parameters) in HEADER.functions.items():
            wanted = []
            for _, kind, _ in parameters:
                named = ctypes.POINTER(pointers[kind]) if kind in pointers else ctypes.c_void_p
                wanted.append(named if kind.endswith("*") else PYTHON_TYPES[kind])
            self.assertEqual(c.FUNCTIONS[name], (PYTHON_TYPES[result], wanted), name)


class Files(unittest.TestCase):
    def test_exported_names(self):
        names = re.findall(r"\b(jev_\w+);", (CAPI / "jevmutzal.map").read_text())
        self.assertEqual(sorted(names), sorted(HEADER.functions))

    def test_versions(self):
        (version,) = re.findall(r"^VERSION = (.*)$", (CAPI / "Makefile").read_text(), re.MULTILINE)
        (named,) = re.findall(r'^version = "(.*)"$', (CAPI / "python" / "pyproject.toml").read_text(), re.MULTILINE)
        self.assertEqual({version, named}, {jevmutzal.__version__})
        self.assertEqual(int(version.split(".")[0]), HEADER.numbers["VERSION"])
        self.assertEqual(c.SHARED, f"libjevmutzal.so.{HEADER.numbers['VERSION']}")
        self.assertIn(f"JEVMUTZAL_{HEADER.numbers['VERSION']} {{", (CAPI / "jevmutzal.map").read_text())

    def test_names_of_causes(self):
        names = names_of_causes()
        self.assertEqual(len(names), HEADER.numbers["CAUSES"])
        self.assertLessEqual(max(map(len, names)), HEADER.numbers["CAUSE_ROOM"])


def crate_text():
    text = "\n".join(path.read_text() for path in sorted(CRATE.rglob("*.rt")))
    return re.sub(r"//.*", "", text)


def crate_parameters(text):
    """The parameters of an export as C passes them: a slice is a pointer and a length, an allocator is nothing."""
    for name, kind in re.findall(r"(\w+): ([^,]+?)\s*(?:,|$)", text):
        if kind == "&mut [u8]" or kind == "&[u8]":
            yield "uint8_t *", kind == "&[u8]"
            yield "size_t", False
        elif kind.startswith("&mut "):
            (named,) = [it for it, ours in STRUCTURES.items() if ours == kind[len("&mut ") :]]
            yield f"{named} *", False
        elif kind != "Global":
            (named,) = [it for it, ours in CRATE_TYPES.items() if ours == kind]
            yield named, False


class TheCrate(unittest.TestCase):
    def test_answers(self):
        found = {name: int(value) for name, value in re.findall(r"pub const (\w+): i32 = (-?\d+);", crate_text())}
        self.assertEqual(found, HEADER.answers)

    def test_version(self):
        (found,) = re.findall(r"pub const VERSION: u32 = (\d+);", crate_text())
        self.assertEqual(int(found), HEADER.numbers["VERSION"])

    def test_numbers_of_causes(self):
        found = {name: int(number) for name, number in re.findall(r"Cause::(\w+) => (\d+),", crate_text())}
        self.assertEqual(found, {name: number for number, name in enumerate(names_of_causes(), 1)})

    def test_structures(self):
        for name, ours in STRUCTURES.items():
            pattern = rf"#\[repr\(C\)\]\s*(?:#\[[^\]]*\]\s*)*pub struct {ours} \{{(.*?)^\}}"
            (body,) = re.findall(pattern, crate_text(), re.DOTALL | re.MULTILINE)
            fields = re.findall(r"^    (?:pub )?(\w+): ([^,{]+),$", body, re.MULTILINE)
            fields = [(it, kind) for it, kind in fields if kind != "Global"]
            self.assertEqual([(it, CRATE_TYPES[kind]) for it, kind in HEADER.structures[name]], fields, name)

    def test_functions(self):
        pattern = r'#\[unsafe\(no_mangle\)\]\s*(?:#\[[^\n]*\]\s*)*pub extern "C" fn (\w+)\(([^)]*)\)(?: -> (\w+))?'
        found = {name: (result, parameters) for name, parameters, result in re.findall(pattern, crate_text())}
        self.assertEqual(set(found), set(HEADER.functions))
        for name, (result, parameters) in HEADER.functions.items():
            self.assertEqual(CRATE_TYPES.get(result, ""), found[name][0], name)
            wanted = [(kind, is_const) for _, kind, is_const in parameters]
            self.assertEqual(wanted, list(crate_parameters(" ".join(found[name][1].split()))), name)


if __name__ == "__main__":
    unittest.main()
