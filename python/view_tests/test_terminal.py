"""The form for a terminal."""

from __future__ import annotations

import re
import unittest
from typing import List

from deferreds.view.facts import read_facts
from deferreds.view.run import Run, run_of_facts, run_of_journal
from deferreds.view.scripts import Script
from deferreds.view.terminal import Terminal
from deferreds.view.texts import unseen

from . import samples
from .stand_in import told

_COLOR = re.compile("\x1b\\[\\d+m")


def rows_of(run: Run) -> List[str]:
    """The lines of the journal."""
    lines = list(Terminal(run, False).lines())
    first = lines.index("") + 1
    return lines[first : lines.index("", first)]


class Shown(unittest.TestCase):
    """What it shows."""

    def test_events_nesting_and_causes(self) -> None:
        journal = 'new #0 d\nadd #0\nlater call c 5\nadvance 5\ncall c\nfire #0 ok 1\nrun #0\nnote "x"\nset #0 ok 2\nnote "last"\n#0 d ok 2\n'
        events = [
            ["deferred", "d"],
            ["addCallback", "d", {}],
            ["later", "c", 5, {"do": [["callback", "d", 1]]}],
            ["advance", 5],
            ["note", "last"],
        ]
        run = run_of_facts(
            read_facts(told(journal, [0, 1, 2, 3, 9])), Script({"events": events}), "test"
        )
        self.assertEqual(
            rows_of(run),
            [
                " 1 0 new #0 d   ┄ event 0",
                " 2 · add #0·d   ┄ event 1  addCallback d {}",
                " 3 · later call c 5   ┄ event 2  later c 5 {callback d 1}",
                " 4 5 advance 5   ┄ event 3",
                " 5 · │ call c   ← scheduled at line 3, due 5",
                " 6 · │ │ fire #0·d ok 1",
                " 7 · │ │ ┌ run #0·d",
                ' 8 · │ │ │ note "x"',
                " 9 · │ │ └ set #0·d ok 2",
                '10 · note "last"   ┄ event 4',
            ],
        )

    def test_the_report_wraps_at_words_and_a_word_is_never_cut(self) -> None:
        run = run_of_journal('new #0 a_name_longer_than_room\nfire #0 fail ValueError "one two  three four five"\n', "test")
        report = list(Terminal(run, False, 33).report())
        at = report.index("!! failure   #0·a_name_longer_than_room")
        self.assertEqual(report[at + 1 :], [" " * 13 + line for line in ("ends with ValueError", '"one two  three four', 'five"  (line 2)')])
        self.assertEqual(list(Terminal(run, False, 32).report()), list(Terminal(run, False).report()))

    def test_a_row_alone_is_a_text_for_a_ticket(self) -> None:
        run = run_of_journal('new #0 d\nadd #0\nlock l\nnew #1 t\nacquire l #1\nfire #1 ok "l"\nnew #2 w\nacquire l #2\n', "test")
        self.assertEqual(
            [Terminal(run, False).copied(finding) for finding in run.report.findings[1:]],
            [
                "test: unfired, line 1\nnobody fired #0·d\n  1 pair waits\n",
                "test: token, line 5\n1 of 1 token of l is held\n  taken 1 time, released 0 times\n  held for #1·t since line 5\n  #2·w waits for a token of l\n",
            ],
        )

    def test_an_event_of_several_lines_has_a_head(self) -> None:
        journal = 'lock l\nnew #0 d\nacquire l #0\nfire #0 ok "l"\n'
        run = run_of_facts(
            read_facts(told(journal, [0, 1])),
            Script({"events": [["lock", "l"], ["acquire", "d", "l"]]}),
            "test",
        )
        self.assertEqual(rows_of(run)[1], "    ┄ event 1  acquire d l")

    def test_a_deep_run_tells_how_deep(self) -> None:
        lines = [
            line
            for number in range(20)
            for line in (f"new #{number} -", f"fire #{number} ok 1", f"run #{number}")
        ]
        run = run_of_journal("".join(f"{line}\n" for line in lines), "test")
        self.assertEqual(rows_of(run)[-1], "60 · " + "│ " * 12 + "(19) ┌ run #19")

    def test_hostile_texts_can_t_do_anything(self) -> None:
        for color in (False, True):
            for line in Terminal(samples.hostile(), color).lines():
                self.assertIsNone(unseen().search(_COLOR.sub("", line) if color else line), line[:100])

    def test_color_adds_nothing_else(self) -> None:
        run = samples.recorded()
        self.assertEqual(
            [_COLOR.sub("", line) for line in Terminal(run, True).lines()],
            list(Terminal(run, False).lines()),
        )


if __name__ == "__main__":
    unittest.main()
