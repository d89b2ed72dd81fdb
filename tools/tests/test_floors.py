"""Tests of floors.py and of what it reads of crates.txt."""
import pathlib
import tempfile
import unittest

import small_repository  # noqa: F401 (the tools' folder)

import crate_list
import floors

CRATES = """# a line for each crate
low:
odd: arrayvec # of the toolchain
middle backend=rattle: low odd
high: middle low
"""
DOCUMENT = f"""# Architecture

{floors.HEAD}| 2 | `high` | The top. |
| 1 | `middle` | Between. |
| 0 | `odd` | Stands alone. |
| | `low` | At the bottom. |

Text.
"""


class Floors(unittest.TestCase):
    def setUp(self):
        room = tempfile.TemporaryDirectory()
        self.addCleanup(room.cleanup)
        self.top = pathlib.Path(room.name)
        (self.top / "docs").mkdir()
        (self.top / "docs/ARCHITECTURE.md").write_text(DOCUMENT)
        (self.top / "crates.txt").write_text(CRATES)
        for name, text in (("low", ""), ("odd", "use arrayvec::ArrayVec;\n"), ("high", "use middle::a;\n// low\n"),
                           ("middle", "//! What lies between: a crate. More.\nuse low::a;\nuse odd::b;\n")):
            (self.top / "crates" / name / "src").mkdir(parents=True)
            (self.top / "crates" / name / "src/lib.rt").write_text(text)

    def change(self, old, new):
        path = self.top / "docs/ARCHITECTURE.md"
        self.assertIn(old, path.read_text())
        path.write_text(path.read_text().replace(old, new))

    def test_of_crates_txt(self):
        crates = crate_list.read_crates(self.top)
        self.assertEqual(crates["odd"], ["arrayvec"])
        self.assertEqual(crate_list.below(crates, "high"), ["low", "odd", "middle"])
        self.assertEqual(crate_list.floors(crates), {"low": 0, "odd": 0, "middle": 1, "high": 2})
        self.assertEqual(crate_list.line_of(self.top, "middle"), "middle backend=rattle: low odd")

    def test_a_ring_is_refused(self):
        with self.assertRaises(ValueError):
            crate_list.below({"a": ["b"], "b": ["a"]}, "a")

    def test_a_document_that_is_right(self):
        self.assertEqual(floors.differences(self.top), [])

    def test_a_wrong_floor(self):
        self.change("| 1 | `middle`", "| 2 | `middle`")
        self.assertTrue(floors.differences(self.top))
        floors.write(self.top)
        self.assertEqual((self.top / "docs/ARCHITECTURE.md").read_text(), DOCUMENT)

    def test_a_crate_that_the_document_lacks(self):
        self.change("| 1 | `middle` | Between. |\n", "")
        self.assertIn("+| 1 | `middle` | What lies between: a crate. |", floors.differences(self.top))

    def test_a_crate_that_is_gone(self):
        (self.top / "crates.txt").write_text(CRATES.replace("high: middle low\n", ""))
        self.assertIn("-| 2 | `high` | The top. |", floors.differences(self.top))

    def test_what_a_change_proves_anew(self):
        counts = dict(floors.changes(crate_list.read_crates(self.top)))
        self.assertEqual(counts, {"low": 3, "odd": 3, "middle": 2, "high": 1})

    def test_a_library_that_no_file_names(self):
        self.assertEqual(floors.unused(self.top), [("high", "low")])


class ThisRepository(unittest.TestCase):
    def test_the_document_has_the_floors_of_crates_txt(self):
        self.assertEqual(floors.differences(crate_list.TOP), [])

    def test_no_library_is_listed_for_nothing(self):
        self.assertEqual(floors.unused(crate_list.TOP), [])


if __name__ == "__main__":
    unittest.main()
