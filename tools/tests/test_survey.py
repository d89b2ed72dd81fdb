"""Tests of survey.py."""
import unittest

import small_repository  # noqa: F401 (the tools' folder)

import survey

RUN = [f"let line_{number} = {number};" for number in range(6)]


class Repeated(unittest.TestCase):
    def numbers(self, **files):
        texts = {name: "".join(f"{line}\n" for line in lines) for name, lines in files.items()}
        numbers, total = survey.repeated(texts)
        return {name: sorted(found) for name, found in numbers.items()}, total

    def test_six_lines_that_two_files_have(self):
        found = self.numbers(one=["fn a() {", *RUN], two=["// a comment", "", *RUN, "}"])
        self.assertEqual(found, ({"one": [2, 3, 4, 5, 6, 7], "two": [3, 4, 5, 6, 7, 8]}, 14))

    def test_five_lines_are_none(self):
        self.assertEqual(self.numbers(one=RUN[:5], two=RUN[:5]), ({}, 10))

    def test_what_is_set_in_and_imports_do_not_count(self):
        found, _ = self.numbers(one=[f"    {line}" for line in RUN], two=[*RUN[:3], "use std::fmt;", *RUN[3:]])
        self.assertEqual(found, {"one": [1, 2, 3, 4, 5, 6], "two": [1, 2, 3, 5, 6, 7]})

    def test_a_run_twice_in_one_file(self):
        found, _ = self.numbers(one=[*RUN, "else", *RUN])
        self.assertEqual(survey.spans(found["one"]), "1-6, 8-13")


class Functions(unittest.TestCase):
    def test_parameters(self):
        for text, count in (
            ("fn a() -> u8", 0),
            ("fn a(&self)", 1),
            ("pub fn a<F: Fn(u8, u8) -> u8>(f: F, pair: (u8, u8),) -> Option<(u8, u8)>", 2),
            ("fn a(\n    x: &mut [u8; 4],\n    // not, this\n    y: Result<u8, u8>,\n    f: fn(u8) -> u8,\n)", 3),
        ):
            self.assertEqual([found[2] for found in survey.functions(text)], [count], text)

    def test_places(self):
        self.assertEqual(list(survey.functions("\nfn one(a: u8) {}\n\nfn two() {}\n")), [(2, "one", 1), (4, "two", 0)])


class Definitions(unittest.TestCase):
    def test_heads(self):
        text = "\n".join([
            "-- a comment : of a kind", "use Rattle.std.specs.Prelude.{ℕ}", "pub mod Sums", "pub use Sums.{sum}",
            "abbrev pub sum_below : ℕ → ℕ", "sum_below n = n", "unfoldable pub first {A : Type 0} (n : ℕ) : ℕ",
            "pub record Table : Type 0 where", "  pub width : ℕ", "data Kind where", "pub ◌>>=◌ : ℕ → ℕ",
        ])
        found = [name for _, name in survey.definitions(text)]
        self.assertEqual(found, ["sum_below", "first", "Table", "Kind", "◌>>=◌"])


if __name__ == "__main__":
    unittest.main()
