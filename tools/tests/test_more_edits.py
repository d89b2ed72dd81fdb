"""Tests of more_edits.py: the form of edits, and how they are tried."""
import unittest

from small_repository import Repository

import more_edits

GOOD = "file: src/lib.rt\nold: code\nnew: refused\n"


class Form(Repository):
    def wrong(self, text, name="one.edit", folder="more-edits"):
        """What is wrong with an edit of the crate middle, or nothing."""
        self.write("middle", f"{folder}/{name}", text)
        for other in ("must-fail", "more-edits"):
            (self.top / "crates/low" / other / "one.edit").unlink(missing_ok=True)
        found, count = more_edits.check(self.top)
        self.assertEqual(count, 1)
        return found[0] if found else ""

    def test_of_good_edits(self):
        self.assertEqual(self.wrong(GOOD), "")
        self.assertEqual(self.wrong("file: src/lib.rt\nold: code\nnew:\n"), "")
        self.assertEqual(self.wrong("file: src/lib.rt\nold: code\nnew: two\nold: two\nnew: three\n"), "")

    def test_of_texts_that_do_not_stand_there_once(self):
        self.assertIn("stands 0 times", self.wrong("file: src/lib.rt\nold: other\nnew: code\n"))
        self.write("middle", "src/lib.rt", "code code\n")
        self.assertIn("stands 2 times", self.wrong(GOOD))

    def test_of_files(self):
        self.assertIn("there is no file", self.wrong("file: src/other.rt\nold: a\nnew: b\n"))
        self.assertIn("no file below src/", self.wrong("file: src/../specs/Lib.antt\nold: a\nnew: b\n"))
        self.assertIn("no file below src/", self.wrong("file: Cargo.toml\nold: a\nnew: b\n"))

    def test_of_definitions_and_proofs(self):
        for path in ("specs/Lib.antt", "proofs/Lib.antt"):
            self.write("middle", path, "a\n")
            self.assertIn("shows nothing of the code", self.wrong(f"file: {path}\nold: a\nnew: b\n"))

    def test_of_lines(self):
        self.assertIn("line 1 begins with none", self.wrong("path: src/lib.rt\nold: code\nnew: other\n"))
        self.assertIn("line 2 begins with none", self.wrong("file: src/lib.rt\nold:code\nnew: other\n"))
        self.assertIn("before any file:", self.wrong("old: code\nnew: other\n"))
        self.assertIn("no old: line before it", self.wrong("file: src/lib.rt\nnew: other\n"))
        self.assertIn("no new: line behind it", self.wrong("file: src/lib.rt\nold: code\n"))
        self.assertIn("it changes nothing", self.wrong("file: src/lib.rt\n"))
        self.assertIn("texts are equal", self.wrong("file: src/lib.rt\nold: code\nnew: code\n"))

    def test_of_names_and_places(self):
        self.assertIn("stands right in its folder", self.wrong(GOOD, name="one.txt"))

    def test_of_folders_in_folders(self):
        self.assertIn("stands right in its folder", self.wrong(GOOD, name="more/one.edit", folder="must-fail"))

    def test_of_two_that_are_the_same(self):
        self.write("middle", "must-fail/first.edit", GOOD)
        self.write("middle", "more-edits/second.edit", GOOD)
        found = [line for line in more_edits.check(self.top)[0] if "middle" in line]
        self.assertEqual(found, ["crates/middle/more-edits/second.edit: the same edit as "
                                 "crates/middle/must-fail/first.edit"])


class Trials(Repository):
    def setUp(self):
        super().setUp()
        self.write("middle", "more-edits/first.edit", GOOD)
        self.write("middle", "must-fail/of_the_gate.edit", GOOD)

    def test_each_is_refused(self):
        said, _, status = self.call("more_edits.py", "middle")
        self.assertEqual(status, 0)
        self.assertEqual(said.splitlines(), ["must-fail middle/first.edit: refused, as it must be",
                                             "1 refused, 0 not, 0 not tried"])
        self.assertEqual(self.proved(), ["low", "middle"])
        self.assertFalse(list(self.room.glob("cache/jevmutzal/edits-*/crates")))

    def test_one_is_not_refused(self):
        self.write("middle", "more-edits/second.edit", "file: src/lib.rt\nold: code\nnew: as good\n")
        said, _, status = self.call("more_edits.py", "middle")
        self.assertEqual(status, 1)
        self.assertIn("middle/second.edit: NOT REFUSED", said)
        self.assertIn("1 refused, 1 not, 0 not tried", said)

    def test_none_is_tried_where_the_crate_is_not_proved(self):
        self.write("middle", "src/lib.rt", "code that fails\n")
        said, _, status = self.call("more_edits.py", "middle")
        self.assertEqual((said, status), ("0 refused, 0 not, 1 not tried\n", 1))

    def test_all_and_the_list(self):
        self.write("low", "more-edits/one.edit", GOOD)
        said, _, status = self.call("more_edits.py", "all")
        self.assertIn("2 refused, 0 not, 0 not tried", said)
        said, _, status = self.call("more_edits.py", "--list")
        self.assertEqual(said.split(), ["crates/low/more-edits/one.edit", "crates/middle/more-edits/first.edit"])
        self.assertEqual(self.call("more_edits.py", "--list", "low")[0], "crates/low/more-edits/one.edit\n")

    def test_words_that_do_not_fit(self):
        self.assertEqual(self.call("more_edits.py")[2], 2)
        self.assertEqual(self.call("more_edits.py", "nothing")[2], 2)
        self.assertEqual(self.call("more_edits.py", "other")[0::2], ("no edits to try\n", 0))


if __name__ == "__main__":
    unittest.main()
