"""The tree of a Deferred in a real browser: what it says, which lines the chart shows then, hostile texts."""

from __future__ import annotations

import json
import unittest
from typing import Iterator, List

from deferreds.view.run import Run
from deferreds.view.texts import visible

from . import samples
from .test_browser import InBrowser

_BRANCHES = "[...document.querySelectorAll('#tree .branch')].map(branch => branch.dataset.s)"
# the rows that are drawn, by their places
LINES = "[...document.querySelectorAll('.row[id]')].map(row => Number(row.id.slice(1)) - 1)"

# each arrow: whether the row that stands beside it names whom it reaches
ARROWS = """[...document.querySelectorAll('.chunk .arrow')].map(arrow => {
  const place = arrow.getBoundingClientRect(), middle = (place.top + place.bottom) / 2;
  const row = [...arrow.closest('.chunk').querySelectorAll('.row')].find(row => { const at = row.getBoundingClientRect(); return at.top < middle && middle < at.bottom; });
  return Boolean(row) && (row.dataset.d || '').split(' ').includes(arrow.dataset.to); })"""

# parts whose rows and pictures don't have one height, or that don't stand below one another
UNEVEN = """[...document.querySelectorAll('.chunk')].filter((chunk, place, every) => {
  const rows = chunk.querySelectorAll('.row').length * 20, next = every[place + 1];
  if (next && Math.abs(next.getBoundingClientRect().top - chunk.getBoundingClientRect().bottom) > 0.6) return true;
  return [chunk, ...chunk.querySelectorAll(':scope > svg, :scope > .side > svg')].some(part => Math.abs(part.getBoundingClientRect().height - rows) > 0.6); }).length"""


class Trees(InBrowser):
    """`#d=N` shows a Deferred with all that hangs on it."""

    def branches(self, run: Run, number: int) -> List[str]:
        """The branches as Python makes them."""
        return [
            " ".join(
                [str(one.depth), one.step.does.value, "" if one.step.row is None else str(one.step.row),
                 "" if one.step.other is None else str(one.step.other), str(int(one.opens))]
            )
            for one in run.stories.tree(number)
        ]  # fmt: skip

    def _runs(self) -> Iterator[samples.Sample]:
        yield from samples.told_by_the_program()
        yield samples.Sample("recorded", samples.recorded())
        yield samples.Sample("hostile", samples.hostile())

    def go(self, number: int) -> None:
        """Follows the address of a Deferred."""
        self.asked(f"new Promise(done => {{ addEventListener('hashchange', () => done(0), {{once: true}}); location.hash = 'd={number}'; }})")
        self.browser.settle()

    def test_it_has_the_branches_that_the_terminal_has(self) -> None:
        for sample in self._runs():
            self.show(sample.run)
            for number in list(sample.run.fold.records)[:12]:
                self.go(number)
                self.assertEqual(self.asked(_BRANCHES), self.branches(sample.run, number), f"{sample.name} #{number}")
            self.assertEqual(self.trouble(), [], sample.name)

    def test_the_chart_shows_its_rows_alone(self) -> None:
        run = samples.recorded()
        self.show_all(run, "#d=6")
        named = {row for one in run.stories.tree(6) for row in (one.step.row, one.step.end) if row is not None}
        shown = set(self.asked(LINES))
        self.assertLessEqual(named, shown)
        for row in shown - named:
            entry = run.fold.rows[row].entry
            holds = any(run.fold.rows[one].inside == row for one in shown)
            self.assertTrue(entry.word == "advance" or holds, entry.line)
        hidden = len(run.fold.rows) - len(shown)
        self.assertGreater(hidden, 100)
        self.assertIn(f"hides {hidden} lines", self.asked("document.getElementById('tree').textContent"))
        self.browser.resize(1360, 1000)
        self.show(run, "#d=6")
        top = self.asked("document.getElementById('tree').getBoundingClientRect().top")
        self.assertTrue(0 <= top < 100, top)

    def test_pictures_stand_beside_their_rows(self) -> None:
        arrows: List[bool] = []
        for sample in self._runs():
            number = max(sample.run.fold.records, key=lambda one: len(list(sample.run.stories.tree(one))))
            self.show_all(sample.run, f"#d={number}")
            found = self.asked(ARROWS)
            self.assertTrue(all(found), f"{sample.name} #{number}: {found}")
            arrows += found
            self.assertEqual(self.asked(UNEVEN), 0, sample.name)
        self.assertGreater(len(arrows), 20)

    def test_escape_and_a_link_end_it(self) -> None:
        run = samples.recorded()
        for way in ("Escape", "link"):
            self.show_all(run, "#d=6")
            if way == "link":
                self.browser.click("#tree a[href='#what']")
            else:
                self.browser.press("Escape")
            self.assertTrue(self.asked("document.getElementById('tree').hidden && !location.hash.includes('d=')"))
            self.show_rows()
            self.assertEqual(len(self.asked(LINES)), len(run.fold.rows))

    def test_a_key_leads_there_and_links_to_others(self) -> None:
        self.show(samples.recorded())
        self.asked("document.querySelector('#chart [data-f=\"6\"]').click()")
        self.assertEqual(self.asked("document.querySelector('#focus a').getAttribute('href')"), "#d=6")
        self.browser.press("t")
        self.browser.settle()
        self.assertIn("#6 get_74_3, with all", self.asked("document.getElementById('tree').textContent"))
        self.browser.click("#tree a[href='#d=7']")
        self.browser.settle()
        self.assertIn("#7 get_58_3, with all", self.asked("document.getElementById('tree').textContent"))

    def test_a_link_to_a_row_that_is_hidden_shows_all_rows(self) -> None:
        run = samples.recorded()
        self.show_all(run, "#d=6")
        shown = self.asked(LINES)
        self.asked("[...document.querySelectorAll('#tree .branch a')].find(link => link.getAttribute('href').startsWith('#row=')).click()")
        self.assertEqual(self.asked(LINES), shown, "a row that is shown changes nothing")
        self.asked("(() => { const link = document.querySelector('#tree .branch a[href^=\"#row=\"]'); link.href = '#row=276'; link.click(); })()")
        self.show_rows()
        self.assertEqual(len(self.asked(LINES)), len(run.fold.rows))
        self.browser.resize(1360, 1000)
        self.show(run, "#d=6")
        self.asked("(() => { const link = document.querySelector('#tree .branch a[href^=\"#row=\"]'); link.href = '#row=276'; link.click(); })()")
        self.browser.settle()
        self.assertTrue(0 < self.asked("document.getElementById('r276').getBoundingClientRect().top") < 1000)

    def test_what_is_no_number_changes_nothing(self) -> None:
        run = samples.recorded()
        for fragment in ("#d=", "#d=9999", "#d=<b>", "#d=%3Cimg%20src=x%3E", "#%", "#d=1x"):
            self.show_all(run, fragment)
            self.assertEqual(len(self.asked(LINES)), len(run.fold.rows), fragment)
            self.assertEqual(self.trouble(), [], fragment)

    def test_hostile_texts_are_texts_in_it(self) -> None:
        run = samples.hostile()
        self.show(run)
        for number in range(2 * len(samples.HOSTILE)):
            self.go(number)
            fired = next(row.entry.line for row in run.fold.rows if row.entry.word == "fire" and row.entry.deferred == number)
            value = fired.split(" ", 4 if " fail " in fired else 3)[-1]
            said = self.asked("document.getElementById('tree').textContent")
            self.assertIn(visible(value[:250]), said, json.dumps(value[:40]))
        self.assertIsNone(self.asked("window.harm"))
        self.assertEqual(self.trouble(), [])
        for selector in ("#tree img", "#tree script", "#tree b[onmouseover]", "#tree svg", "#tree [onclick]", "#tree iframe"):
            self.assertFalse(self.asked(f"document.querySelector({json.dumps(selector)}) !== null"), selector)


if __name__ == "__main__":
    unittest.main()
