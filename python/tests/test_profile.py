"""The entries that runs can reach are in docs/TWISTED.md, by their names."""

from __future__ import annotations

import re
import unittest

from deferreds.twisted.profile import Entry
from deferreds.checkout import TOP
from deferreds.twisted.recorded_rows import Quirky, row, rules
from deferreds.twisted.running import be_quiet


class Profile(unittest.TestCase):
    """Names of entries."""

    def test_each_entry_has_a_row_of_the_page(self) -> None:
        page = (TOP / "docs" / "TWISTED.md").read_text(encoding="utf-8")
        names = re.findall(r"^\| `([a-z-]+)` \|", page, re.MULTILINE)
        self.assertEqual(len(names), len(set(names)))
        self.assertLessEqual({entry.value for entry in Entry}, set(names))


class RecordedRows(unittest.TestCase):
    """Rows of what Twisted gave."""

    def test_a_script_that_comes_to_an_entry_makes_no_row(self) -> None:
        be_quiet()
        with self.assertRaises(Quirky):
            row("a row", '{"version":1,"events":[["deferred","d"],["unpause","d"]]}')

    def test_each_rule_has_a_name_of_its_own(self) -> None:
        names = [name for name, _ in rules()]
        self.assertEqual(len(names), len(set(names)))


if __name__ == "__main__":
    unittest.main()
