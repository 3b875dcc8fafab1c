"""Each entry of docs/TWISTED.md has rows, on which Twisted does otherwise, and a rule with which it does what we do."""

from __future__ import annotations

import gc
import unittest
from typing import Dict, List, Set

from deferreds.twisted.profile import Entry
from deferreds.twisted.rows import ENTRIES, Expected, read_rows
from deferreds.twisted.rules import RULES
from deferreds.twisted.running import Run, be_quiet, run

#: a full stack of Python's has no rule; an error leaves an advance only if that is asked for
_WITHOUT_ROWS = {Entry.PYTHON_STACK, Entry.ERROR_LEAVES_ADVANCE}


def _ran(row: Expected, rules: Set[Entry]) -> Run:
    return run(row.script.encode(), rules=rules)


def _reached(ran: Run) -> Set[Entry]:
    return {entry for _, entry in ran.quirks}


class Entries(unittest.TestCase):
    """The rows of each entry, on real Twisted."""

    rows: Dict[Entry, List[Expected]]

    @classmethod
    def setUpClass(cls) -> None:
        be_quiet()
        cls.rows = {}
        for row in read_rows(ENTRIES):
            cls.rows.setdefault(Entry(row.name.partition(":")[0]), []).append(row)

    @classmethod
    def tearDownClass(cls) -> None:
        gc.collect()  # a Deferred that has failed is logged when it goes, which another test would see

    def test_each_entry_that_a_run_can_reach_has_a_row(self) -> None:
        self.assertEqual(set(self.rows), set(Entry) - _WITHOUT_ROWS)

    def test_each_has_a_rule(self) -> None:
        self.assertEqual(set(RULES), set(Entry) - {Entry.PYTHON_STACK})

    def test_twisted_reaches_the_entry_and_prints_something_else(self) -> None:
        for entry, rows in self.rows.items():
            for row in rows:
                with self.subTest(row=row.name):
                    ran = _ran(row, set())
                    self.assertIn(entry, _reached(ran))
                    self.assertNotEqual(ran.output, row.output)

    def test_with_the_rules_it_prints_what_we_print_and_reaches_nothing(self) -> None:
        for rows in self.rows.values():
            for row in rows:
                for rules in (_reached(_ran(row, set())), set(RULES)):
                    with self.subTest(row=row.name, rules=len(rules)):
                        ran = _ran(row, rules)
                        self.assertEqual((ran.output, ran.quirks), (row.output, []))

    def test_no_other_rules_do_so(self) -> None:
        for entry, rows in self.rows.items():
            for row in rows:
                with self.subTest(row=row.name):
                    others = _ran(row, set(RULES) - {entry} - _COVERED.get(entry, set()))
                    self.assertNotEqual(others.output, row.output)

    def test_a_run_without_rules_is_that_of_twisted_again(self) -> None:
        row = self.rows[Entry.UNPAUSE_AT_ZERO][0]
        before = _ran(row, set()).output
        _ran(row, set(RULES))
        self.assertEqual(_ran(row, set()).output, before)


#: what one rule does for another entry, too
_COVERED = {
    Entry.PAUSED_RECEIVER: {Entry.ABANDONED_CHAIN},
    Entry.ABANDONED_CHAIN: {Entry.PAUSED_RECEIVER},
    Entry.SKIPPED_TURN: {Entry.JOIN_AFTER_THE_LAST},
}


if __name__ == "__main__":
    unittest.main()
