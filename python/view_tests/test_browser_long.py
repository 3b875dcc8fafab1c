"""A long run in a real browser: its rows are drawn as they are seen, it is searched as a whole, and its address leads back."""

from __future__ import annotations

import time
import unittest
from typing import List
from unittest import mock

from deferreds.view.page import written_page
from deferreds.view.run import Run

from . import samples
from .test_browser import InBrowser

#: how many rows are drawn at most, and how many elements the chart has then
_MOST_ROWS, _MOST_ELEMENTS = 130, 6_000
_LINES = 100_000


class Long(InBrowser):
    """A hundred thousand lines."""

    run_: Run

    @classmethod
    def setUpClass(cls) -> None:
        super().setUpClass()
        cls.run_ = samples.long(_LINES)
        cls.path.write_text(written_page(cls.run_), encoding="utf-8")

    def setUp(self) -> None:
        super().setUp()
        self.open()

    def open(self, fragment: str = "") -> None:
        """Opens the page at this place."""
        self.browser.open(self.path, fragment)

    def drawn(self) -> List[int]:
        """The rows that are drawn, by their numbers."""
        rows: List[int] = self.asked("[...document.querySelectorAll('.row[id]')].map(row => Number(row.id.slice(1)))")
        return rows

    def go(self, script: str) -> None:
        """Does something, and waits until what is seen is drawn."""
        self.asked(script)
        self.browser.settle()

    def test_few_rows_are_drawn_wherever_one_scrolls_to(self) -> None:
        for part in (0, 0.1, 0.5, 0.999, 1, 0.3, 0):
            self.go(f"scrollTo(0, {part} * (document.documentElement.scrollHeight - innerHeight))")
            rows = self.drawn()
            self.assertTrue(rows == sorted(rows) and len(rows) <= _MOST_ROWS, part)
            self.assertLess(self.asked("document.querySelectorAll('#chart *').length"), _MOST_ELEMENTS)
            if 0 < part < 1:
                seen = "[...document.querySelectorAll('.row')].filter(row => { const at = row.getBoundingClientRect(); return at.bottom > 24 && at.top < innerHeight; }).length"
                self.assertGreaterEqual(self.asked(seen), 47)
        self.assertEqual(self.trouble(), [])

    def test_many_small_steps_leave_no_gap_and_no_rest(self) -> None:
        self.go("scrollTo(0, 400000)")
        for step in (700, 700, -300, 2_000, -5_000, 40):
            self.go(f"scrollBy(0, {step})")
            rows = self.drawn()
            self.assertEqual(rows, list(range(rows[0], rows[-1] + 1)))
            self.assertLessEqual(len(rows), _MOST_ROWS)

    def test_a_line_in_the_address_is_brought_to_sight(self) -> None:
        for line in (90_001, 5, len(self.run_.fold.rows)):
            self.open(f"#row={line}")
            top = self.asked("document.querySelector('.row.here').getBoundingClientRect().top")
            self.assertEqual(self.asked("document.querySelector('.row.here').id"), f"r{line}")
            self.assertTrue(0 < top < 1000, line)

    def test_a_search_is_of_the_whole_run(self) -> None:
        rows = [row.place + 1 for row in self.run_.fold.rows if "request 1234 " in row.entry.line]
        self.open("#find=request%201234%20is")
        hit = next(row for row in rows if "is answered" in self.run_.fold.rows[row - 1].entry.line)
        self.assertEqual(self.asked("document.getElementById('found').textContent"), "1 line")
        self.asked("document.querySelector('#search button:nth-of-type(2)').click()")
        self.assertEqual(self.asked("document.querySelector('.row.here').id"), f"r{hit}")
        self.assertEqual(self.asked("document.getElementById('found').textContent"), "1 of 1")

    def test_back_and_forward_lead_to_what_was_chosen(self) -> None:
        self.open("#row=50001")
        self.browser.forget()
        number = self.run_.fold.rows[50_000].names
        self.go(f"document.querySelector('#chart .row.here [data-f], #chart [data-f=\"{(number or [6668])[0]}\"]').click()")
        chosen = self.asked("new URLSearchParams(location.hash.slice(1)).get('f')")
        self.assertTrue(chosen)
        self.go("document.querySelector('#focus a').click()")
        self.assertFalse(self.asked("document.getElementById('tree').hidden"))
        begun = self.asked("history.length")
        for step, tree, is_followed in (("back", True, True), ("back", True, False), ("forward", True, True), ("forward", False, True)):
            self.asked("new Promise(done => setTimeout(done, 400, 0))")  # (the place is noted once scrolling has ended)
            self.assertEqual(self.asked("history.length"), begun)
            self.asked(f"(addEventListener('popstate', () => {{ window.gone = true; }}, {{once: true}}), history.{step}(), 0)")
            while not self.asked("window.gone === true"):  # (going may take the answer of a promise with it)
                time.sleep(0.05)
            self.asked("window.gone = false")
            self.browser.settle()
            self.assertEqual(self.asked("document.getElementById('tree').hidden"), tree, step)
            self.assertEqual(self.asked("document.body.classList.contains('focus')"), is_followed, step)
        self.assertEqual(self.trouble(), [])

    def test_the_place_that_one_scrolled_to_is_in_the_address(self) -> None:
        self.go("scrollTo(0, 1000000)")
        self.asked("new Promise(done => setTimeout(done, 500, 0))")
        top, address = self.asked("[Number(new URLSearchParams(location.hash.slice(1)).get('top')), location.hash]")
        self.assertTrue(top > 49_000, address)
        self.open(address)
        place = self.asked(f"document.getElementById('r{top}').getBoundingClientRect().top")
        self.assertTrue(0 <= place <= 40, place)

    def test_a_filter_is_of_the_whole_run_and_stands_in_the_address(self) -> None:
        words = {row.entry.word for row in self.run_.fold.rows}
        notes = [row.place + 1 for row in self.run_.fold.rows if row.entry.word == "note"]
        self.open("#not=" + "+".join(sorted(words - {"note"})))
        rows = self.drawn()
        self.assertEqual(rows, notes[: len(rows)])
        self.assertIn(f"it hides {len(self.run_.fold.rows) - len(notes)} of {len(self.run_.fold.rows)} lines", self.asked("document.querySelector('#sieve summary').textContent"))
        self.go("scrollTo(0, document.documentElement.scrollHeight)")
        self.assertEqual(self.drawn()[-1], notes[-1])

    def test_a_print_is_bounded(self) -> None:
        self.go("scrollTo(0, 1000000)")
        self.asked("dispatchEvent(new Event('beforeprint'))")
        rows = self.drawn()
        self.assertTrue(100 < len(rows) <= 340 and rows[0] > 49_000, len(rows))
        self.assertLess(self.asked("document.documentElement.scrollHeight"), 30_000)
        self.asked("dispatchEvent(new Event('afterprint'))")
        self.browser.settle()
        self.assertLessEqual(len(self.drawn()), _MOST_ROWS)

    def test_by_the_keyboard_it_goes_to_both_ends(self) -> None:
        self.go("document.getElementById('skip').click()")
        for key, row in (("End", len(self.run_.fold.rows)), ("ArrowUp", len(self.run_.fold.rows) - 1), ("Home", 1), ("PageDown", 47)):
            self.browser.press(key)
            self.browser.settle()
            self.assertEqual(self.asked("document.querySelector('.row.here').id"), f"r{row}", key)
            self.assertTrue(0 < self.asked("document.querySelector('.row.here').getBoundingClientRect().top") < 1000)


class LongerThanThePage(InBrowser):
    """Of a run that is longer than a page may be, the end is there."""

    def test_the_last_lines_are_shown(self) -> None:
        run = samples.long(3_000)
        count = len(run.fold.rows)
        with mock.patch("deferreds.view.sizes.part_of.__defaults__", (None, None, 1_000)):
            self.show(run, f"#row={count}")
        self.assertEqual(self.asked("document.querySelector('.row.here').id"), f"r{count}")
        self.assertIn(f"lines {count - 999} to {count} of {count}", self.asked("document.getElementById('above').textContent"))
        self.asked("scrollTo(0, 0)")
        self.browser.settle()
        self.assertEqual(self.asked("document.querySelector('.row[id]').id"), f"r{count - 999}")
        self.assertEqual(self.trouble(), [])


if __name__ == "__main__":
    unittest.main()
