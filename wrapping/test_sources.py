"""Tests of whole files: what a line stands in decides where it goes on."""

from __future__ import annotations

import contextlib
import io
import tempfile
import unittest
from pathlib import Path
from typing import List, Sequence
from unittest import mock

import sources
import wrap_lines
from sources import Changed, too_long, wrapped

ARROWS = "(first second third fourth fifth : List ℕ) → IsSorted first second third → IsSorted second third fourth → IsSorted fifth"
BROKEN = [
    "(first second third fourth fifth : List ℕ) → IsSorted first second third → IsSorted second third fourth",
    "→ IsSorted fifth",
]


class Terms(unittest.TestCase):
    """Files of `specs/` and `proofs/`."""

    def becomes(self, lines: Sequence[str], expected: Sequence[str]) -> None:
        made = wrapped("A.antt", "\n".join(lines)).split("\n")
        self.assertEqual(list(expected), made)
        self.assertEqual(list(expected), wrapped("A.antt", "\n".join(made)).split("\n"))

    def test_a_field_goes_on_four_columns_from_its_own(self) -> None:
        self.becomes(
            ["pub record A : Type 0 where", "  -- a comment", f"  pub field : {ARROWS}"],
            ["pub record A : Type 0 where", "  -- a comment", f"  pub field : {BROKEN[0]}", f"      {BROKEN[1]}"],
        )

    def test_a_line_that_goes_on_stays_at_its_column(self) -> None:
        self.becomes(
            ["name :", f"    {ARROWS}", f"other : {ARROWS}"],
            ["name :", f"    {BROKEN[0]}", f"    {BROKEN[1]}", f"other : {BROKEN[0]}", f"    {BROKEN[1]}"],
        )

    def test_an_import_becomes_imports_that_fit(self) -> None:
        names = [f"name_{number}" for number in range(20)]
        made = wrapped("A.antt", f"use A.B.{{{', '.join(names)}}}").split("\n")
        self.assertEqual(2, len(made))
        self.assertTrue(all(line.startswith("use A.B.{name_") and len(line) <= 120 for line in made))

    def test_cases_move_with_the_line_that_opens_them(self) -> None:
        head = "chosen_by_what_it_is (first_function of_these) (second_function of_these) (third_function of_these)"
        self.becomes(
            [f"name a b c d e = elim ({head}) [", "  -- the first", "  | inl h ↦ h", "  | inr k ↦ k", "]", "f = a"],
            [
                "name a b c d e =",
                f"    elim ({head}) [",
                "      -- the first",
                "      | inl h ↦ h",
                "      | inr k ↦ k",
                "    ]",
                "f = a",
            ],
        )

    def test_a_tuple_joins_the_line_above(self) -> None:
        parts = [f"a_part_of_a_tuple_that_is_long_{number} of_these" for number in range(3)]
        self.becomes(
            ["f =", "    let a = b in", f"    ({', '.join(parts)})"],
            ["f =", "    let a = b in (", *(f"      {part}," for part in parts), "    )"],
        )

    def test_a_kept_text_stays_in_one_line(self) -> None:
        self.assertEqual(f"name : {ARROWS}", wrapped("A.antt", f"name : {ARROWS}", ["fourth → IsSorted fifth"]))

    def test_tokens_that_would_change_are_refused(self) -> None:
        with mock.patch.object(sources, "broken", lambda *_: ["name : A"]), self.assertRaises(Changed):
            wrapped("A.antt", f"name : {ARROWS}")


class Rust(unittest.TestCase):
    """Files of `src/`."""

    def test_clauses_go_on_and_bodies_stay(self) -> None:
        clause = "ensures { OnOk result (journal.new ≡ with_entry journal.old (scheduling what.now place.result)) }"
        body = "        let number = " + " + ".join(["number"] * 12) + ";"
        made = wrapped("a.rt", f"pub fn f()\n        {clause}\n{{\n{body}\n}}").split("\n")
        self.assertEqual(["pub fn f()", "        ensures { OnOk result"], made[:2])
        self.assertTrue(made[2].startswith("            (journal.new"))
        self.assertEqual(body, made[-2])

    def test_a_ghost_item_goes_part_by_part(self) -> None:
        item = "ghost view = { λ s. record { first_field = s.first_field; second_field = s.second_field; third = s.third } };"
        self.assertEqual([
            "    ghost view = { λ s. record {",
            "      first_field = s.first_field;",
            "      second_field = s.second_field;",
            "      third = s.third;",
            "    } };",
        ], wrapped("a.rt", f"    {item}").split("\n"))

    def test_texts_over_lines_stay(self) -> None:
        text = f'const HELP: &str = "\n// {"word " * 30}\nensures {{ {"word " * 30}}}\n";'
        self.assertEqual(text, wrapped("a.rt", text))

    def test_what_rt_fmt_and_texts_make_long_is_not_listed(self) -> None:
        self.assertEqual([], too_long("a.rt", f'#[tactic(auto, using({"a" * 120}))]\nlet a = "{"a" * 120}";'))
        self.assertEqual([(1, 127)], too_long("a.rt", f'let a = {"a" * 118};'))
        self.assertEqual([(2, 121)], too_long("A.antt", "a" * 120 + "\n" + "a" * 121))


class Commands(unittest.TestCase):
    """The command, on a tree of one crate."""

    def setUp(self) -> None:
        folder = tempfile.TemporaryDirectory()
        self.addCleanup(folder.cleanup)
        self.crates = Path(folder.name) / "crates"
        self.proof = self.crates / "one" / "proofs" / "deep" / "A.antt"
        self.proof.parent.mkdir(parents=True)
        (self.crates / "one" / "src").mkdir()
        (self.crates / "one" / "out").mkdir()
        (self.crates / "one" / "out" / "A.antt").write_text("a" * 200)
        self.proof.write_text(f"name : {ARROWS}\n")

    def run_with(self, *words: str) -> List[str]:
        """Returns the status and the lines that the command prints."""
        printed = io.StringIO()
        with contextlib.redirect_stdout(printed):
            status = wrap_lines.main(list(words), self.crates)
        return [str(status), *printed.getvalue().splitlines()]

    def test_check_lists_and_writes_nothing(self) -> None:
        before = self.proof.read_text()
        self.assertEqual(["1", f"crates/one/proofs/deep/A.antt:1: {len(before) - 1} columns"], self.run_with("--check"))
        self.assertEqual(before, self.proof.read_text())

    def test_without_it_the_lines_are_broken(self) -> None:
        self.assertEqual(["0"], self.run_with())
        self.assertEqual(f"name : {BROKEN[0]}\n    {BROKEN[1]}\n", self.proof.read_text())
        self.assertEqual(["0"], self.run_with("--check", "one"))

    def test_a_wrong_body_keeps_its_text(self) -> None:
        edits = self.crates / "one" / "must-fail"
        edits.mkdir()
        (edits / "a.edit").write_text("file: proofs/deep/A.antt\nold: fourth → IsSorted fifth\nnew: fourth\n")
        self.assertEqual(2, len(self.run_with()))
        self.assertEqual(f"name : {ARROWS}\n", self.proof.read_text())

    def test_no_such_crate(self) -> None:
        with contextlib.redirect_stderr(io.StringIO()):
            self.assertEqual(["64"], self.run_with("two"))


if __name__ == "__main__":
    unittest.main()
