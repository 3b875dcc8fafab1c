"""Runs are compared behind the entries of docs/TWISTED.md, too."""

from __future__ import annotations

import gc
import json
import unittest
from typing import Any, FrozenSet, List, Optional

from deferreds.twisted.comparing import Difference, difference
from deferreds.twisted.conforming import Tally
from deferreds.twisted.profile import Entry
from deferreds.twisted.programs import Answer
from deferreds.twisted.rules import RULES
from deferreds.twisted.running import be_quiet, run

_NONE: FrozenSet[Entry] = frozenset()

#: Twisted reaches two entries
_EVENTS = [
    ["deferred", "d"],
    ["unpause", "d"],
    ["note", "between"],
    ["gather", "g", ["d"], []],
    ["callback", "g", 7],
    ["note", "last"],
]


class Behind(unittest.TestCase):
    """What differs behind an entry."""

    def setUp(self) -> None:
        be_quiet()

    @classmethod
    def tearDownClass(cls) -> None:
        gc.collect()  # a Deferred that has failed is logged when it goes, which another test would see

    def compared(
        self, mine: FrozenSet[Entry], theirs: FrozenSet[Entry], change: Optional[List[str]] = None, whose: str = "theirs"
    ) -> Optional[Difference]:
        """How two answers differ, each that of Twisted with rules, in one of which a line is changed."""
        script = json.dumps({"version": 1, "events": _EVENTS})
        outputs = {name: run(script.encode(), rules=rules).output for name, rules in (("mine", mine), ("theirs", theirs))}
        if change is not None:
            self.assertIn(change[0], outputs[whose])
            outputs[whose] = outputs[whose].replace(*change)
        return difference(script, *(Answer(0, outputs[name], "") for name in ("mine", "theirs")))

    def test_twisted_itself_is_the_same_behind_an_entry(self) -> None:
        found = self.compared(RULES, _NONE)
        assert found is not None
        self.assertEqual((found.entry, found.is_cut), (Entry.UNPAUSE_AT_ZERO, False))

    def test_a_port_may_do_as_we_do_at_one_entry_and_as_twisted_at_another(self) -> None:
        for entry, named in (
            (Entry.UNPAUSE_AT_ZERO, Entry.GATHER_FIRED_BY_HAND),
            (Entry.GATHER_FIRED_BY_HAND, Entry.UNPAUSE_AT_ZERO),
        ):
            with self.subTest(entry=entry):
                found = self.compared(RULES, frozenset({entry}))
                self.assertEqual(found and found.entry, named)

    def test_a_mistake_of_the_port_behind_an_entry_is_found(self) -> None:
        found = self.compared(RULES, _NONE, ['note "last"', 'note "lost"'])
        assert found is not None
        self.assertEqual((found.entry, found.behind, found.is_ours), (None, Entry.GATHER_FIRED_BY_HAND, False))
        self.assertEqual((found.ours, found.theirs), ('note "last"', 'note "lost"'))

    def test_a_mistake_of_ours_behind_an_entry_is_found(self) -> None:
        found = self.compared(RULES, _NONE, ['note "last"', 'note "lost"'], "mine")
        assert found is not None
        self.assertEqual((found.entry, found.is_ours), (None, True))
        self.assertEqual((found.ours, found.theirs), ('note "lost"', 'note "last"'))

    def test_a_mistake_before_every_entry_is_found(self) -> None:
        found = self.compared(RULES, _NONE, ["new #0 d", "new #0 e"])
        assert found is not None
        self.assertEqual((found.line, found.entry, found.behind), (1, None, None))

    def test_a_full_stack_cuts_the_comparison(self) -> None:
        canceller: Any = ["deferred", "d", {"do": [["cancel", "@"]]}]
        script = json.dumps({"version": 1, "limit": 200_000, "events": [canceller, ["cancel", "d"], ["note", "x"]]})
        ours = Answer(1, "new #0 d\n" + "cancel #0\n" * 199_999 + "#0 d unfired\n", "")
        found = difference(script, ours, Answer(0, run(script.encode()).output, ""))
        assert found is not None
        self.assertEqual((found.entry, found.is_cut), (Entry.PYTHON_STACK, True))


class Counted(unittest.TestCase):
    """How many runs are the same, and where the others end."""

    def test_each_run_is_counted_once(self) -> None:
        tally = Tally()
        named = Difference(1, "a", "b", Entry.UNPAUSE_AT_ZERO)
        for found in (None, None, None, named, named, Difference(1, "a", "b", Entry.PYTHON_STACK, is_cut=True)):
            tally.count(found)
        tally.count(Difference(1, "a", "b", None))
        self.assertEqual((tally.passed, tally.failed), (6, 1))
        self.assertEqual(
            tally.lines(),
            [
                "1 differ as docs/TWISTED.md says: python-stack",
                "2 differ as docs/TWISTED.md says: unpause-at-zero",
                "3 the same, 2 the same behind an entry, 1 cut at one",
            ],
        )


if __name__ == "__main__":
    unittest.main()
