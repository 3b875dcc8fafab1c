"""Folds in a real browser: what is hidden and said, what opens it, hostile texts."""

from __future__ import annotations

import json
import unittest
from typing import List

from deferreds.view.run import Run
from deferreds.view.texts import visible

from . import samples
from .test_browser import InBrowser
from .test_browser_trees import ARROWS, LINES, UNEVEN
from .test_folding import of, polling


def recorded(run: Run) -> Run:
    """The run as one that was recorded."""
    run.tick = "1 ms"
    return run


class Folds(InBrowser):
    """A fold is a row that opens."""

    def lines(self) -> int:
        """How many lines are shown."""
        self.show_rows()
        shown: List[int] = self.asked(LINES)
        return len(shown)

    def said(self) -> str:
        """What is said of the folds."""
        said: str = self.asked("document.getElementById('folds').textContent")
        return said

    def test_a_recorded_run_opens_folded_and_says_how_much_is_hidden(self) -> None:
        run = recorded(of(polling(40)))
        self.show(run)
        hidden = 40 * 5 - 2
        self.assertEqual(self.lines(), len(run.fold.rows) - hidden)
        self.assertIn(f"{hidden} lines are folded away, in 1 fold.", self.said())
        self.assertEqual(self.asked("document.querySelector('#r4 .fold').textContent"), f"▸ turn poll, 40 times: {hidden} lines")
        self.browser.click("#r4 .fold")
        self.assertEqual(self.lines(), len(run.fold.rows))
        self.assertEqual(self.asked("document.querySelector('#r4 .fold').getAttribute('aria-expanded')"), "true")
        self.assertNotIn("folded away", self.said())
        self.browser.click("#folds .act")
        self.assertEqual(self.lines(), len(run.fold.rows) - hidden)

    def test_any_other_run_opens_whole(self) -> None:
        run = of(polling(40))
        self.show(run)
        self.assertEqual(self.lines(), len(run.fold.rows))
        self.browser.click("#folds .act")
        self.assertEqual(self.lines(), 4)

    def test_pictures_stand_beside_their_rows(self) -> None:
        arrows: List[bool] = []
        for sample in [*samples.told_by_the_program(), samples.Sample("recorded", samples.recorded()), samples.Sample("long", samples.long(300))]:
            self.show_all(recorded(sample.run))
            found = self.asked(ARROWS)
            self.assertTrue(all(found), sample.name)
            arrows += found
            self.assertEqual(self.asked(UNEVEN), 0, sample.name)
            self.assertEqual(self.trouble(), [], sample.name)
        self.assertGreater(len(arrows), 20)

    def test_what_leads_to_a_hidden_row_opens_it(self) -> None:
        self.show(recorded(samples.recorded()), "#row=6")
        self.assertIn(5, self.asked(LINES))
        self.assertTrue(0 < self.asked("document.getElementById('r6').getBoundingClientRect().top") < 1000)
        self.show(recorded(samples.recorded()))
        self.assertNotIn(3, self.asked(LINES))
        self.asked("scrollTo(0, 300)")
        self.browser.settle()
        before = self.asked("document.querySelector('#chart [data-f=\"1\"]').getBoundingClientRect().top")
        self.asked("document.querySelector('#chart [data-f=\"1\"]').click()")
        after = self.asked("document.querySelector('#chart [data-f=\"1\"]').getBoundingClientRect().top")
        self.assertIn(3, self.asked(LINES))
        self.assertAlmostEqual(before, after, delta=1)

    def test_all_rows_are_searched_and_told_in_a_tree(self) -> None:
        run = recorded(samples.recorded())
        self.show(run)
        few = self.lines()
        self.browser.press("/")
        self.asked("(() => { const find = document.getElementById('find'); find.value = 'acquire'; find.dispatchEvent(new Event('input')); })()")
        self.assertEqual(self.lines(), len(run.fold.rows))
        self.browser.press("Escape")
        self.assertEqual(self.lines(), few)
        self.show(run, "#d=1")
        self.show_rows()
        named = {step.row for step in run.stories.of[1]}
        self.assertLessEqual(named, set(self.asked(LINES)))

    def test_hostile_texts_in_turns_are_texts(self) -> None:
        lines = ["new #0 d"]
        for text in samples.HOSTILE:
            said = json.dumps(text, ensure_ascii=False)
            lines += ["advance 5", "turn poll", f"note {said}", "fire #0 fail E " + said] * 4 + ['note "between"']
        run = recorded(of(lines))
        self.show_all(run)
        self.assertEqual(self.asked("document.querySelectorAll('.fold').length"), len(samples.HOSTILE))
        self.assertEqual(set(self.asked("[...document.querySelectorAll('.fold')].map(fold => fold.textContent)")), {"▸ turn poll, 3 times: 10 lines"})
        self.assertLess(self.lines(), len(run.fold.rows))
        self.assertIsNone(self.asked("window.harm"))
        self.assertEqual(self.trouble(), [])

    def test_the_name_of_a_line_that_isn_t_known_is_a_text(self) -> None:
        # (a line of no known form isn't a turn, whatever it looks like)
        for text in samples.HOSTILE[:8]:
            run = recorded(of(["new #0 d", *["advance 1", f"turn {text}", "fire #0 ok 1"] * 4]))
            self.show_all(run)
            self.assertIn(visible(f"turn {text}"), self.asked("document.getElementById('chart').textContent"))
            self.assertIsNone(self.asked("window.harm"))


if __name__ == "__main__":
    unittest.main()
