"""The lines that made Deferreds, divided by the lines that called them."""

from __future__ import annotations

import unittest
from typing import Dict, List, NamedTuple, Sequence

from deferreds.view.places import Frame, Place, Places, Stack
from deferreds.view.run import Run, run_of_journal
from deferreds.view.terminal import Terminal

from .test_report import journal, report_of

_ASK = "wire.py:3 ask"


def _frame(text: str) -> Frame:
    """A frame of a text as `wire.py:3 ask`."""
    where, _, function = text.partition(" ")
    file, _, line = where.partition(":")
    return Frame(Place(f"/srv/{file}", int(line)), function)


def _run(stacks: Sequence[Sequence[Sequence[str]]], lines: Sequence[str] = ()) -> Run:
    """The run of as many Deferreds, each made in these functions, with further lines of a journal."""
    run = run_of_journal(journal(*(f"new #{number} ask_3_{number}" for number in range(len(stacks))), *lines), "test")
    told: Dict[str, Stack] = {f"ask_3_{number}": tuple(tuple(map(_frame, part)) for part in stack) for number, stack in enumerate(stacks)}
    run.places = Places({name: stack[0][0].place for name, stack in told.items() if stack}, {}, told)
    return run


class Divided(NamedTuple):
    """The callers of each Deferred of a line, and the lines that count: for each what is said of it, and how many it made."""

    callers: List[List[str]]
    lines: Dict[str, int]


_DIVIDED = [
    Divided([[], [], []], {"wire.py:3 ask": 3}),
    Divided([["shop.py:7 order"], ["shop.py:7 order"], ["shop.py:9 order"]], {"shop.py:7 order, by ask at wire.py:3": 2, "shop.py:9 order, by ask at wire.py:3": 1}),
    Divided([["wire.py:8 get"], ["wire.py:8 get"]], {"wire.py:3 ask, from get at wire.py:8": 2}),
    Divided([["shop.py:7 order"], ["shop.py:7 order"]], {"shop.py:7 order, by ask at wire.py:3": 2}),
    Divided(
        [["wire.py:8 get", "shop.py:7 order"], ["wire.py:8 get", "shop.py:9 order"]],
        {"shop.py:7 order, by ask at wire.py:3": 1, "shop.py:9 order, by ask at wire.py:3": 1},
    ),
    Divided([[], ["shop.py:9 order"]], {"wire.py:3 ask": 1, "shop.py:9 order, by ask at wire.py:3": 1}),
]


class Lines(unittest.TestCase):
    """Which line counts."""

    def test_it_is_that_of_the_caller_if_several_have_called_the_line_or_one_of_another_file(self) -> None:
        for callers, lines in _DIVIDED:
            with self.subTest(lines):
                sites = _run([[[_ASK, *one]] for one in callers]).inferred.sites
                self.assertEqual({f"{site.place.text} {site.label}": len(site.records) for site in sites.all}, lines)
                self.assertEqual([len(line.records) for line in sites.lines], [len(callers)])

    def test_a_recording_without_callers_has_the_lines_that_made_them(self) -> None:
        run = run_of_journal(journal("new #0 ask_3", "new #1 ask_3_2"), "test")
        run.places = Places(dict.fromkeys(("ask_3", "ask_3_2"), Place("/srv/wire.py", 3)), {})
        self.assertEqual([(site.place.text, site.label) for site in run.inferred.sites.all], [("wire.py:3", "ask")])

    def test_a_row_says_who_called_and_where_that_began(self) -> None:
        stacks = [[[_ASK, f"shop.py:{line} order"], ["main.py:5 main"]] for line in (7, 9)]
        rows = report_of(_run(stacks))
        self.assertIn("made at shop.py:7 in order, by ask at wire.py:3, begun at main.py:5 in main", rows[0])
        rows = report_of(_run([[[_ASK, "wire.py:8 get"]]]))
        self.assertIn("made at wire.py:3, called at wire.py:8 in get", rows[0])


class OddOnes(unittest.TestCase):
    """What the Deferreds of a divided line are compared with."""

    def odd(self, callers: Sequence[str], times: Sequence[int]) -> List[int]:
        """The numbers of those that are odd: each is cancelled after as many ticks as are said for it, or fired at once."""
        fired = [f"fire #{number} ok 1" for number, time in enumerate(times) if time == 0]
        late = [line for number, time in enumerate(times) if time for line in (f"advance {time}", f"cancel #{number}", f'fire #{number} fail CancelledError ""')]
        run = _run([[[_ASK, caller]] for caller in callers], [*fired, *late])
        run.tick = "1 s"
        return sorted(run.inferred.sites.odd)

    def test_they_are_those_of_the_same_caller_if_these_are_four(self) -> None:
        polls, asks = ["shop.py:9 poll"] * 4, ["shop.py:7 order"] * 8
        self.assertEqual(self.odd([*asks, *polls], [*[0] * 8, 5, 5, 6, 6]), [])
        self.assertEqual(self.odd([*asks, *polls], [*[0] * 7, 7, *[0] * 4]), [7])

    def test_they_are_all_of_the_line_if_these_are_fewer(self) -> None:
        self.assertEqual(self.odd([*["shop.py:7 order"] * 8, "shop.py:9 poll"], [*[0] * 8, 7]), [8])
        row = report_of(_run([[[_ASK, f"shop.py:{line} order"]] for line in range(4, 9)], [*(f"fire #{number} ok 1" for number in range(4)), "advance 9", "cancel #4", 'fire #4 fail CancelledError ""']))
        self.assertIn("5 were made there: 4 ok, 1 cancelled", " ".join(row))


class Shown(unittest.TestCase):
    """The table of a text."""

    def test_hostile_names_of_functions_stay_texts(self) -> None:
        run = _run([[[_ASK, "shop.py:7 \x1b[31mred"]]])
        self.assertNotIn("\x1b", "\n".join(Terminal(run, False).report()))


if __name__ == "__main__":
    unittest.main()
