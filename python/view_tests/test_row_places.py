"""Which line of the program each row tells of."""

from __future__ import annotations

import unittest
from typing import Dict, List, Optional

from deferreds.view.places import Place, Places
from deferreds.view.run import run_of_journal
from deferreds.view.scripts import Script

from .test_report import journal
from .test_services import run_of_service


def _lines(rows: List[str], events: List[object], deferreds: Dict[str, int], actions: Dict[str, int]) -> List[Optional[int]]:
    """The line of each row, by the events of the script, and the lines of Deferreds and of actions."""
    run = run_of_journal(journal(*rows), "test", Script({"events": events}))
    made, acted = ({key: Place("a.py", line) for key, line in table.items()} for table in (deferreds, actions))
    run.places = Places(made, acted)
    found = [run.row_places.of(row) for row in run.fold.rows]
    return [place.line if place is not None else None for place in found]


class OfRows(unittest.TestCase):
    """Rows of a journal, and the actions of a script that its lines tell of."""

    def test_one_that_makes_a_deferred_has_the_line_that_made_it(self) -> None:
        rows = ["lock l", "new #0 token", "acquire l #0", 'fire #0 ok "l"']
        self.assertEqual(_lines(rows, [["lock", "l"], ["acquire", "token", "l"]], {"token": 4}, {"/events/0": 3}), [3, 4, 4, None])

    def test_an_action_on_a_name_has_its_line_if_all_of_its_word_are_there(self) -> None:
        rows = ["new #0 d", "add #0", "fire #0 ok 1", "run #0", "set #0 ok 1"]
        events: List[object] = [["deferred", "d"], ["addCallback", "d", {}], ["callback", "d", 1]]
        actions = {"/events/1": 6, "/events/2": 7}
        self.assertEqual(_lines(rows, events, {"d": 5}, actions), [5, 6, 7, 6, 6])
        self.assertEqual(_lines(rows, [*events, ["addBoth", "d", {}]], {"d": 5}, {**actions, "/events/3": 9}), [5, None, 7, None, None])

    def test_a_body_awaits_where_it_stands(self) -> None:
        rows = ["new #0 body", "new #1 d", "await #0 #1", "add #1"]
        events = [["inline", "body", [["do", ["deferred", "d"]], ["await", "d"]]]]
        self.assertEqual(_lines(rows, events, {"body": 2, "d": 3}, {"/events/0/2/1": 4}), [2, 3, 4, 4])

    def test_a_callback_and_what_lies_in_it_have_the_line_that_added_it(self) -> None:
        rows = ["new #0 d", "add #0", "add #0", "fire #0 ok 1", "run #0", "new #1 e", 'fire #1 fail ValueError ""', "set #0 ok 2", "run #0", "set #0 ok 3"]
        events: List[object] = [["deferred", "d"], ["addCallback", "d", {}], ["addErrback", "d", {}]]
        lines = _lines(rows, [["addCallback", "d", {}]], {"d": 5}, {"/events/0": 6})
        self.assertEqual(lines, [5, 6, 6, None, 6, 6, 6, 6, 6, 6])
        self.assertEqual(_lines(rows, events, {"d": 5}, {"/events/1": 6, "/events/2": 7}), [5, *[None] * 9][:10])
        self.assertEqual(_lines([*rows[:8]], [["addCallback", "d", {}]], {"d": 5}, {"/events/0": 6})[4:], [None] * 4)

    def test_what_is_due_has_the_line_that_scheduled_it(self) -> None:
        rows = [
            "new #0 d", "later timeout #0 5", "add #0", "later call c 3", "new #1 j", "job 0 #1", "new #2 k", "job 1 #2",
            "advance 5", "call c", "note 1", "timeout #0", "cancel #0", "deliver 0", 'fire #1 ok "x"',
        ]  # fmt: skip
        events: List[object] = [["addTimeout", "d", 5], ["later", "c", 3, {}], ["thread", "j", {}], ["thread", "k", {}]]
        lines = _lines(rows, events, {"d": 2, "j": 5, "k": 6}, {"/events/0": 3, "/events/1": 4, "/events/2": 5, "/events/3": 6})
        self.assertEqual(lines[:9], [2, 3, 3, 4, 5, 5, 6, 6, None])
        self.assertEqual([lines[9], lines[11], lines[13]], [4, 3, 5])

    def test_actions_of_a_body_on_one_name_have_their_lines_in_order(self) -> None:
        rows = ["new #0 body", "lock l", "new #1 a", "acquire l #1", "release l", "note 1", "new #2 d", "await #0 #2", "add #2", "fire #2 ok 1", "run #2", "release l", "note 2", "fire #0 ok null", "set #2 ok null"]
        steps: List[object] = [["do", ["release", "l"]], ["do", ["note", "x"]], ["await", "d"], ["do", ["release", "l"]], ["do", ["note", "y"]]]
        actions = {"/events/0/2/0/1": 4, "/events/0/2/1/1": 5, "/events/0/2/2": 6, "/events/0/2/3/1": 7, "/events/0/2/4/1": 8}
        lines = _lines(rows, [["inline", "body", steps]], {"body": 1, "a": 2, "d": 3}, actions)
        self.assertEqual(lines, [1, None, 2, 2, 4, 5, 3, 6, 6, None, 6, 7, 8, 6, 6])
        more = _lines(rows, [["inline", "body", [*steps, ["do", ["release", "l"]]]]], {"body": 1}, {**actions, "/events/0/2/5/1": 9})
        self.assertEqual([more[4], more[11]], [None, 6])
        other = [["do", ["addCallback", "d", {"do": [["release", "l"]]}]], *steps]
        shifted = {f"/events/0/2/{number}": line for number, line in (("1/1", 4), ("2/1", 5), ("3", 6), ("4/1", 7), ("5/1", 8), ("0/1/2/do/0", 9))}
        self.assertEqual([_lines(rows, [["inline", "body", other]], {"body": 1}, shifted)[row] for row in (4, 11)], [4, 7])

    def test_a_row_that_lies_in_nothing_else_has_the_line_of_its_event(self) -> None:
        text = journal("new #0 d", "lock l", "note 1")
        run = run_of_journal(text, "test", Script({"events": [["deferred", "d"], ["lock", "l"], ["note", 1]]}), begins=[0, 1, 2])
        run.places = Places({}, {"/events/1": Place("a.py", 7)})
        self.assertEqual([run.row_places.of(row) for row in run.fold.rows], [None, Place("a.py", 7), None])

    def test_what_twisted_does_by_itself_after_a_cancel_has_the_line_of_that(self) -> None:
        rows = ["new #0 a", "new #1 b", "await #0 #1", "add #1", "cancel #0", "cancel #1", 'fire #1 fail CancelledError ""']
        events = [["addCallback", "b", {}], ["cancel", "a"], ["cancel", "b"], ["errback", "b", "ValueError", ""]]
        lines = _lines(rows, events, {}, {"/events/0": 3, "/events/1": 4, "/events/2": 5, "/events/3": 6})
        self.assertEqual(lines, [None, None, None, None, 4, 4, 4])

    def test_a_cancel_after_one_that_did_nothing_is_of_another_action(self) -> None:
        rows = ["new #0 a", "fire #0 ok 1", "new #1 b", "cancel #0", "cancel #1", 'fire #1 fail CancelledError ""']
        self.assertEqual(_lines(rows, [["cancel", "a"]], {}, {"/events/0": 4}), [None, None, None, 4, None, None])

    def test_a_release_that_runwith_may_have_done_has_none(self) -> None:
        rows = ["lock l", "new #0 t", "acquire l #0", 'fire #0 ok "l"', "release l"]
        events: List[object] = [["release", "l"]]
        self.assertEqual(_lines(rows, events, {}, {"/events/0": 3})[-1], 3)
        self.assertEqual(_lines(rows, [*events, ["runWith", "r", "l", {}]], {}, {"/events/0": 3})[-1], None)

    def test_without_places_there_is_none(self) -> None:
        self.assertEqual(_lines(["new #0 d"], [["deferred", "d"]], {}, {}), [None])


class OfServices(unittest.TestCase):
    """Recorded programs."""

    def test_each_await_and_each_deferred_that_the_program_makes_has_one(self) -> None:
        for name in ("ledger", "warehouse", "payments"):
            run = run_of_service(name)
            rows = [row for row in run.fold.rows if row.entry.word in ("await", "new")]
            without = [row.entry.line for row in rows if run.row_places.of(row) is None]
            self.assertLessEqual(len(without), 2, without)

    def test_nearly_all_rows_have_one_but_those_in_which_time_goes_on(self) -> None:
        for name in ("ledger", "warehouse", "payments", "transfers", "feeds"):
            run = run_of_service(name)
            rows = [row for row in run.fold.rows if row.entry.word != "advance"]
            self.assertGreater(sum(run.row_places.of(row) is not None for row in rows), 0.9 * len(rows), name)

    def test_each_release_of_the_ledger_stands_where_the_program_releases(self) -> None:
        run = run_of_service("ledger")
        lines = {place.line for row in run.fold.rows if row.entry.word == "release" for place in [run.row_places.of(row)] if place is not None}
        self.assertEqual(lines, {44, 56, 61, 62})


if __name__ == "__main__":
    unittest.main()
