"""The cases of rules: each rule of the definition's page has some, and what a run shows of them."""

from __future__ import annotations

import json
import re
import unittest
from typing import Any, Set

from deferreds.checkout import TOP
from deferreds.twisted.reached import Shown, cases
from deferreds.twisted.rules import RULES
from deferreds.twisted.running import be_quiet, run

from .test_turns import rows_of_turns

_PAGE = TOP / "crates" / "dv_definition" / "specs" / "Definition.antt"
_RULE = re.compile(r"^(?:abbrev|unfoldable) pub (\w+) : (.*)$", re.MULTILINE)


def shown(*events: Any, **keys: Any) -> Set[str]:
    """What a script's run shows: the texts of its cases."""
    script = json.dumps({"version": 3, "events": list(events), **keys}, separators=(",", ":"))
    found = Shown(script, run(script.encode(), rules=RULES))
    return {case.what for case in cases() if found.times(case)}


class Table(unittest.TestCase):
    """The file of cases."""

    def test_each_rule_of_the_page_has_a_case(self) -> None:
        named = {rule for case in cases() for rule in case.rules}
        rules = {name for name, _ in _RULE.findall(_PAGE.read_text(encoding="utf-8"))}
        self.assertEqual(named - rules - {"tells_failure"}, set(), "these aren't rules of the page")
        self.assertEqual(rules - named, set(), "these have no case")

    def test_no_case_is_there_twice(self) -> None:
        names = [case.name for case in cases()]
        self.assertEqual(sorted(names), sorted(set(names)))

    def test_each_case_is_shown_by_something(self) -> None:
        for case in cases():
            with self.subTest(case=case.name):
                self.assertEqual(sum(map(bool, (case.journal, case.played, case.turns))), 1)


class Cases(unittest.TestCase):
    """What runs show."""

    def setUp(self) -> None:
        be_quiet()

    def test_a_plain_run_shows_little(self) -> None:
        self.assertEqual(
            shown(["deferred", "d"], ["addCallback", "d", {}], ["callback", "d", 1]),
            {"a callback or an errback runs", "a value becomes the result"},
        )

    def test_a_join_after_the_last_of_a_round_has_left(self) -> None:
        joined = "version 3: the last of a round has left, and one joins that is last"
        earlier = "versions 1 and 2: the last of a round has left, and one joins that is next"
        tasks = [["cooperate", "a", [{}, {}]], ["cooperate", "b", [{}, {}]]]
        turns = [["advance", 1], ["advance", 1]]
        leaving = [["pauseTask", "b"], ["resumeTask", "b"]]
        self.assertIn(joined, shown(*tasks, *turns, *leaving))
        self.assertIn(earlier, shown(*tasks, *turns, *leaving, version=1))
        self.assertNotIn(joined, shown(*tasks, *turns, ["cooperate", "c", []]))

    def test_turns_as_twisted_has_them(self) -> None:
        found: Set[str] = set()
        for row in rows_of_turns():
            ran = Shown(row.script, run(row.script.encode(), rules=RULES))
            found |= {case.what for case in cases() if ran.times(case)}
        of_twisted = {case.what for case in cases() if case.what.startswith("as in Twisted: ")}
        self.assertGreater(len(of_twisted), 10)
        self.assertLessEqual(of_twisted, found)

    def test_the_end_of_a_tick_is_that_of_its_event(self) -> None:
        scheduled = "as in Twisted: a task that joins in a tick schedules the next one"
        twisted = {"units": 2, "delay": 1, "turns": "twisted"}
        beside = [["cooperate", "a", []], ["advance", 1], ["cooperate", "b", [{}]]]
        self.assertNotIn(scheduled, shown(*beside, cooperator=twisted))
        inside = [["cooperate", "a", [{"do": [["cooperate", "b", [{}]]]}]], ["advance", 1]]
        self.assertIn(scheduled, shown(*inside, cooperator=twisted))

    def test_an_end_that_fails_in_a_finally(self) -> None:
        failed = "an end that fails in the first statements of a finally"
        self.assertIn(failed, shown(["inline", "d", [["finally", [["end", ["raise", "ValueError", "x"]]], []]]]))
        self.assertNotIn(failed, shown(["inline", "d", [["finally", [["end", ["return", 1]]], []]]]))
        self.assertNotIn(failed, shown(["inline", "d", [["finally", [], [["end", ["raise", "ValueError", "x"]]]]]]))

    def test_a_reset_twice(self) -> None:
        twice = "a call is reset twice before time advances"
        later, reset, advance = ["later", "c", 5, {}], ["resetCall", "c", 4], ["advance", 1]
        self.assertIn(twice, shown(later, reset, reset))
        self.assertNotIn(twice, shown(later, reset, advance, reset))


if __name__ == "__main__":
    unittest.main()
