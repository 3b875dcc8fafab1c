"""The filter in a real browser: what it hides, and what it says of that."""

from __future__ import annotations

import json
import unittest
from typing import List, Set

from deferreds.view.records import ended
from deferreds.view.run import Run

from . import samples
from .test_browser import InBrowser
from .test_browser_folds import recorded
from .test_browser_trees import ARROWS, LINES, UNEVEN

_ENDS = "[...document.querySelectorAll('.ends tr[data-d]')].filter(row => getComputedStyle(row).display !== 'none').map(row => Number(row.dataset.d))"


class Filter(InBrowser):
    """Lines of chosen kinds and outcomes alone."""

    def choose(self, group: str, *values: str) -> None:
        """Leaves these boxes of a group alone."""
        if not self.asked("document.getElementById('sieve').open"):
            self.browser.click("#sieve summary")
            self.browser.settle()
        self.asked(
            f"document.querySelectorAll('#sieve input').forEach(box => {{ if (box.name === '{group}'"
            f" && box.checked !== {json.dumps(values)}.includes(box.value)) box.click(); }})"
        )
        self.show_rows()

    def said(self) -> str:
        """What is said of the filter."""
        said: str = self.asked("document.querySelector('#sieve summary').textContent")
        return said

    def places(self, run: Run, *words: str) -> List[int]:
        """The places of lines of these kinds."""
        return [row.place for row in run.fold.rows if row.entry.word in words]

    def test_by_kind_of_line(self) -> None:
        for run in (samples.recorded(), recorded(samples.recorded())):
            self.show(run)
            self.choose("kind", "fire", "note")
            expected = self.places(run, "fire", "note")
            self.assertEqual(self.asked(LINES), expected)
            self.assertEqual(self.asked("[...document.querySelectorAll('.row.hit')].length"), 0)
            count = len(run.fold.rows)
            self.assertTrue(self.said().endswith(f"it hides {count - len(expected)} of {count} lines, 0 of 26 outcomes"), self.said())
            self.assertEqual(self.trouble(), [])

    def test_by_outcome(self) -> None:
        run = next(one.run for one in samples.told_by_the_program() if one.name == "left_behind")
        self.show(run)
        for end in ("fail", "unfired", "waiting"):
            self.choose("outcome", end)
            of: Set[int] = {one.number for one in run.fold.records.values() if ended(one.end).value == end}
            self.assertTrue(of)
            self.assertEqual(self.asked(LINES), [row.place for row in run.fold.rows if of & set(row.names)], end)
            self.assertEqual(set(self.asked(_ENDS)), of, end)
            self.assertIn(f"{len(run.fold.records) - len(of)} of {len(run.fold.records)} outcomes", self.said())

    def test_heads_stand_over_lines_that_are_shown(self) -> None:
        run = next(one.run for one in samples.told_by_the_program() if one.name == "two_callers")
        self.show(run)
        self.choose("kind", "note")
        events = {run.fold.rows[place].event for place in self.places(run, "note")}
        heads = self.asked("[...document.querySelectorAll('.row.ev .t')].map(head => Number(head.textContent.split(' ')[1]))")
        self.assertLessEqual(set(heads), events)

    def test_with_a_tree_both_hold_and_all_is_shown_again(self) -> None:
        run = samples.recorded()
        self.show_all(run, "#d=6")
        tree = set(self.asked(LINES))
        self.choose("kind", "fire")
        self.assertEqual(set(self.asked(LINES)), tree & set(self.places(run, "fire")))
        self.asked("document.querySelector('#sieve .act').click()")
        self.assertEqual(set(self.asked(LINES)), tree)
        self.browser.press("Escape")
        self.show_rows()
        self.assertEqual(len(self.asked(LINES)), len(run.fold.rows))
        self.assertNotIn("hides", self.said())

    def test_a_link_to_a_hidden_row_ends_it(self) -> None:
        run = recorded(samples.recorded())
        self.show(run)
        self.choose("kind", "note")
        self.asked("new Promise(done => { addEventListener('hashchange', () => done(0), {once: true}); location.hash = 'r6'; })")
        self.assertIn(5, self.asked(LINES))
        self.assertNotIn("hides", self.said())

    def test_pictures_stand_beside_their_rows(self) -> None:
        arrows: List[bool] = []
        for sample in [*samples.told_by_the_program(), samples.Sample("recorded", samples.recorded())]:
            self.show(sample.run)
            self.choose("kind", "fire", "hand", "wait", "cancel", "advance")
            found = self.asked(ARROWS)
            self.assertTrue(all(found), sample.name)
            arrows += found
            self.assertEqual(self.asked(UNEVEN), 0, sample.name)
        self.assertGreater(len(arrows), 30)

    def test_hostile_texts_are_no_kinds(self) -> None:
        self.show(samples.hostile())
        self.choose("kind", "note")
        self.assertEqual(self.asked("[...document.querySelectorAll('#sieve input[name=kind]')].map(box => box.value)"), ["fire", "new", "note", "unhandled"])
        self.assertEqual(len(self.asked(LINES)), len(samples.HOSTILE))
        self.assertIsNone(self.asked("window.harm"))
        self.assertEqual(self.trouble(), [])


if __name__ == "__main__":
    unittest.main()
