#!/usr/bin/env python3
"""Tests of the check of words."""

import pathlib
import tempfile
import unittest

import style


class Style(unittest.TestCase):
    def setUp(self):
        self.style = style.Style()

    def found(self, line):
        return [old for old, _ in self.style.of_line(line)]

    def test_every_old_word(self):
        self.assertGreater(len(style.rules()), 20)
        for old, new in style.rules():
            with self.subTest(old):
                self.assertEqual(self.found(f"Here {old} is said."), [old])
                self.assertEqual(self.found(f"Here {new} is said."), [])

    def test_first_in_a_line(self):
        self.assertEqual(self.found("Behind it comes what it told."), ["Behind", "told"])

    def test_what_is_passed_over(self):
        for line in ["`stands` is a clause", 'the section "a vote behind a cut"', "*told twice*", "a book stands for puts", "it stood for one",
                     "a stub that stands in for rt", "misunderstands", "in place of it", "base behind an abort; another"]:
            with self.subTest(line):
                self.assertEqual(self.found(line), [])

    def test_files(self):
        with tempfile.TemporaryDirectory() as folder:
            page, source = pathlib.Path(folder, "a.md"), pathlib.Path(folder, "a.rt")
            page.write_text("told\n```\ntold\n```\nstands\n| `kit/a.rt` | 4 | It stands. |\n")
            source.write_text("//! told\nlet told = 1; // told\n    /// stands\n")
            self.assertEqual([(number, old) for number, old, _ in self.style.of_file(page)], [(1, "told"), (5, "stands")])
            self.assertEqual([(number, old) for number, old, _ in self.style.of_file(source)], [(1, "told"), (3, "stands")])


if __name__ == "__main__":
    unittest.main()
