"""What pages print from the sources: the table of crates in crates/README.md, and the list of definitions."""

from __future__ import annotations

import tempfile
import unittest
from itertools import zip_longest
from pathlib import Path

from describing.crates import HEAD, PAGE, first_sentence, table, table_in, write
from describing.definitions import lines, listing
from describing.sources import Crate, Missing, crates, first_comment, modules


class OfTheRepository(unittest.TestCase):
    """What is in the repository."""

    def test_the_map_has_the_row_of_each_crate(self) -> None:
        held = table_in(PAGE.read_text(encoding="utf-8"))
        assert held is not None, "crates/README.md has no table of crates"
        for row, printed in zip_longest(held, table(crates())):
            self.assertEqual(row, printed, "python/make_map --write puts the row right")

    def test_each_module_of_definitions_is_listed_once(self) -> None:
        for crate in crates():
            listed = [module.name for module in modules(crate)]
            files = {path.stem for path in (crate.folder / "specs").glob("*.antt")} - {"Lib", "formers"}
            with self.subTest(crate=crate.name):
                self.assertEqual(len(listed), len(set(listed)))
                self.assertEqual(set(listed), files)

    def test_the_pages_to_read_first_are_listed(self) -> None:
        printed = "\n".join(listing(["dv_definition"]))
        for name in ("Rule", "Words", "Definition", "Scripts"):
            self.assertRegex(printed, rf"(?m)^  {name} +\S")
        self.assertNotIn("dv_store/specs", printed)


class OfASmallTree(unittest.TestCase):
    """Sources that are written for a test."""

    def setUp(self) -> None:
        folder = tempfile.TemporaryDirectory()
        self.addCleanup(folder.cleanup)
        self.top = Path(folder.name)
        self.add("crates.txt", "low: json\n\nhigh: low # above it\n")
        self.add("crates/low/src/lib.rt", "//! What is\n//! low. It has more.\n#![tactic(auto)]\n")
        self.add("crates/high/src/main.rt", "//! What is high.\n")
        self.add("crates/low/specs/Lib.antt", "pub mod Second\npub mod First\npub mod Kept\n")
        self.add("crates/low/specs/First.antt", "-- The first.\n\nuse Second\n")
        self.add("crates/low/specs/Second.antt", "-- The second,\n-- in two lines.\n")
        self.add("crates/low/specs/Kept.antt", "pub mod Deeper\n")

    def add(self, name: str, text: str) -> None:
        path = self.top / name
        path.parent.mkdir(parents=True, exist_ok=True)
        path.write_text(text, encoding="utf-8")

    def test_a_row_has_the_first_sentence_of_the_root(self) -> None:
        self.assertEqual(table(crates(self.top)), [*HEAD, "| `low` | What is low |", "| `high` | What is high |"])
        self.assertEqual(first_sentence("One thing"), "One thing")

    def test_modules_have_the_order_of_their_list(self) -> None:
        low, high = crates(self.top)
        self.assertEqual(
            list(lines(low)),
            ["crates/low/specs: What is low. It has more.", "  Second  The second, in two lines.", "  First   The first."],
        )
        self.assertEqual(list(lines(high)), [])

    def test_a_file_without_a_comment_is_named(self) -> None:
        self.add("crates/low/src/lib.rt", "pub mod first;\n")
        with self.assertRaisesRegex(Missing, "low/src/lib.rt"):
            list(crates(self.top))
        self.add("crates/low/specs/First.antt", "use Second\n")
        with self.assertRaisesRegex(Missing, "First.antt"):
            list(modules(Crate("low", "", self.top / "crates" / "low")))
        self.assertEqual(first_comment(self.top / "crates/high/src/main.rt", "//!"), "What is high.")

    def test_a_crate_without_a_root_is_named(self) -> None:
        self.add("crates.txt", "new: low\n")
        with self.assertRaisesRegex(Missing, "new/src/lib.rt"):
            list(crates(self.top))

    def test_the_table_of_a_page_is_replaced_and_nothing_else(self) -> None:
        page = self.top / "MAP.md"
        page.write_text(f"before\n\n{HEAD[0]}\n{HEAD[1]}\n| old | row |\n\nafter | | it\n", encoding="utf-8")
        self.assertTrue(write(page, [*HEAD, "| new | row |", "| more | rows |"]))
        self.assertEqual(
            page.read_text(encoding="utf-8"),
            f"before\n\n{HEAD[0]}\n{HEAD[1]}\n| new | row |\n| more | rows |\n\nafter | | it\n",
        )

    def test_a_page_without_the_table_stays_as_it_is(self) -> None:
        page = self.top / "MAP.md"
        page.write_text("no table\n", encoding="utf-8")
        self.assertFalse(write(page, HEAD))
        self.assertEqual(page.read_text(encoding="utf-8"), "no table\n")


if __name__ == "__main__":
    unittest.main()
