"""A narrow screen, and rows that are longer than their place, in a real browser."""

from __future__ import annotations

import json
import unittest

from deferreds.view.places import Place, Places
from deferreds.view.scripts import compact
from deferreds.view.texts import shortened, visible

from . import samples
from .test_browser import InBrowser

# the rows whose text is cut, by its place or by the page, and that have no title with the rest
_CUT = """[...document.querySelectorAll('.row')].filter(row => { const text = row.querySelector('.t'), behind = row.querySelector('.c');
if (row.classList.contains('ev')) return (text.scrollWidth > text.clientWidth + 1 || text.textContent.includes('…')) && !row.title;
return behind && behind.textContent.includes('…') && !behind.title && !behind.textContent.includes('←'); }).map(row => row.textContent.slice(0, 80))"""


class Narrow(InBrowser):
    """At 400 pixels lanes are folded away."""

    def test_lines_have_the_whole_width(self) -> None:
        self.browser.resize(400, 900)
        self.show(samples.recorded())
        shown = "[...document.querySelectorAll('.chunk > svg, .head > svg, .legend')].filter(part => getComputedStyle(part).display !== 'none').length"
        self.assertEqual(self.asked(shown), 0)
        self.assertEqual(self.asked("document.querySelector('.side').getBoundingClientRect().width"), 400)
        self.assertEqual(self.asked("document.scrollingElement.scrollWidth"), 400)
        room = "[...document.querySelectorAll('.row[id]')].map(row => 400 - row.querySelector('.t').getBoundingClientRect().left).reduce((a, b) => Math.max(a, b))"
        self.assertGreater(self.asked(room), 280)

    def test_lanes_are_shown_where_that_is_wanted(self) -> None:
        self.browser.resize(400, 900)
        self.show(samples.recorded())
        self.browser.click("button.lanes")
        self.assertNotEqual(self.asked("getComputedStyle(document.querySelector('.chunk > svg')).display"), "none")
        self.assertLess(self.asked("document.querySelector('.side').getBoundingClientRect().width"), 250)
        self.browser.click("button.lanes")
        self.assertEqual(self.asked("document.querySelector('.side').getBoundingClientRect().width"), 400)

    def test_trees_the_filter_and_the_axis_fit(self) -> None:
        self.browser.resize(400, 900)
        wide = "[...document.querySelectorAll('main *')].filter(part => part.getBoundingClientRect().width && part.getBoundingClientRect().right > innerWidth + 0.5).length"
        for run, number in ((samples.recorded(), 6), (samples.hostile(), 31)):
            self.show(run, f"#d={number}")
            self.asked("document.querySelectorAll('details').forEach(part => { part.open = true; })")
            self.browser.settle()
            self.assertTrue(self.asked("document.querySelectorAll('#sieve input').length > 3 && !document.getElementById('tree').hidden"))
            self.assertEqual(self.asked(wide), 0)

    def test_on_a_wide_screen_there_is_no_such_button(self) -> None:
        self.show(samples.recorded())
        self.assertEqual(self.asked("getComputedStyle(document.querySelector('button.lanes')).display"), "none")


class Whole(InBrowser):
    """A row that is cut has its whole text on a touch, and as a title."""

    def touch(self, row: str) -> str:
        """Touches a row, and tells what is shown."""
        self.asked(f"document.querySelector({json.dumps(row)}).click()")
        said: str = self.asked("document.getElementById('whole').hidden ? '' : document.getElementById('whole').textContent")
        return said

    def test_no_head_is_cut_without_a_title(self) -> None:
        self.browser.resize(1400, 900)
        for sample in [*samples.told_by_the_program(), samples.Sample("hostile", samples.hostile())]:
            if sample.name == "two_callers":
                sample.run.places = Places({}, {f"/events/{event}": Place("/a/file_with_a_long_name.py", 12) for event in range(20)})
            self.show_all(sample.run, width=1400)
            self.assertEqual(self.asked(_CUT), [], sample.name)

    def test_a_touch_shows_the_line_and_what_is_behind_it(self) -> None:
        run = samples.recorded()
        self.show_all(run, width=400)
        for place in (5, 54, 90):
            row = run.fold.rows[place - 1]
            said = self.touch(f"#r{place} .t")
            self.assertTrue(said.startswith(row.entry.line))
        self.assertIn("scheduled at line 9, due 1", self.touch("#r54 .t"))
        self.assertEqual(self.touch("#r54 .t"), "", "a second touch ends it")
        self.touch("#r5 .t")
        self.browser.press("Escape")
        self.assertTrue(self.asked("document.getElementById('whole').hidden"))

    def test_hostile_events_are_texts(self) -> None:
        run = samples.hostile()
        self.show_all(run)
        count = self.asked("document.querySelectorAll('.row.ev').length")
        self.assertEqual(count, 2 * len(samples.HOSTILE))
        for event in range(count):
            self.asked(f"document.querySelectorAll('.row.ev')[{event}].id = 'touched'")
            said = self.touch("#touched .t")
            self.asked("document.getElementById('touched').id = ''")
            expected = visible(shortened(compact(run.script.events[event]), 1_000))
            self.assertTrue(said == expected or said.startswith(f"event {event}  "), (said[:80], expected[:80]))
        self.assertIsNone(self.asked("window.harm"))
        self.assertEqual(self.asked("document.querySelectorAll('#whole .text *').length"), 0)
        self.assertEqual(self.trouble(), [])

    def test_links_stay_links(self) -> None:
        self.show(samples.recorded())
        self.asked("document.querySelector('#chart [data-f=\"1\"]').click()")
        self.assertTrue(self.asked("document.getElementById('whole').hidden"))


if __name__ == "__main__":
    unittest.main()
