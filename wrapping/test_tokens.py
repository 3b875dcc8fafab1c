"""Tests of what counts as the same text."""

from __future__ import annotations

import unittest

from tokens import import_of, meaning_of


class Meanings(unittest.TestCase):
    """Texts that mean the same, and texts that don't."""

    def same(self, one: str, other: str) -> None:
        self.assertEqual(meaning_of(one), meaning_of(other))

    def differ(self, one: str, other: str) -> None:
        self.assertNotEqual(meaning_of(one), meaning_of(other))

    def test_breaks_and_what_rt_fmt_adds(self) -> None:
        self.same("f = (a, b) c", "f = (\n  a,\n  b,\n) c")
        self.same("f = record { a = b; c = d }", "f = record {\n  a = b;\n  c = d;\n}")
        self.same("elim x [ a ↦ b | c ↦ d ]", "elim x [\n  | a ↦ b\n  | c ↦ d\n]")

    def test_imports_of_the_same_names(self) -> None:
        self.same("use A.B.{x, y as z, w}", "use A.B.{x, y as z}\nuse A.B.{w}")
        self.same("ghost use A.B.{x, y};", "ghost use A.B.{x};\nghost use A.B.{y};")

    def test_comments_of_the_same_words(self) -> None:
        self.same("/// one two\n/// three", "/// one\n/// two three")

    def test_other_names_and_words(self) -> None:
        self.differ("f = a b", "f = ab")
        self.differ("f = (a, b)", "f = (a b)")
        self.differ("f = a b", "f = b a")
        self.differ("use A.B.{x, y}", "use A.B.{x}\nuse A.C.{y}")
        self.differ("use A.B.{x}", "pub use A.B.{x}")
        self.differ("-- one two", "-- one")

    def test_code_that_becomes_a_comment(self) -> None:
        self.differ("-- one\ntwo", "-- one\n-- two")
        self.differ("-- one\n-- two", "-- one\ntwo")
        self.differ("/// one\n/// two", "/// one\n// two")

    def test_a_comma_between_parts_and_one_in_a_text(self) -> None:
        self.differ("f (a, , b)", "f (a, b)")
        self.differ('f "a,)"', 'f "a)"')


class Imports(unittest.TestCase):
    """Lines that are imports by names."""

    def test_parts(self) -> None:
        brought = import_of("    ghost use A.B.{◌≡◌, [], x as y};")
        assert brought is not None
        self.assertEqual(("    ", "ghost use A.B", ["◌≡◌", "[]", "x as y"], ";"), tuple(brought))

    def test_a_module_and_a_block_are_none(self) -> None:
        self.assertIsNone(import_of("use A.B as C"))
        self.assertIsNone(import_of("use a::{b, c};"))


if __name__ == "__main__":
    unittest.main()
