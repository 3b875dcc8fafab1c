"""The page in a real browser: colours, hostile texts, geometry, focus, keys, print."""

from __future__ import annotations

import json
import math
import re
import tempfile
import unittest
from pathlib import Path
from typing import Any, Dict, Iterator, List, Tuple
from unittest import mock

from deferreds.view import texts
from deferreds.view.page import MOST_PLAIN, NARROW, written_page
from deferreds.view.run import Run, run_of_journal
from deferreds.view.scripts import Script
from deferreds.view.stories import Does
from deferreds.view.texts import Html, shortened, visible

from . import samples
from .browser import Browser, found, shared

_GROUNDS = ("page", "stripe", "chosen", "band")
_COLORS = ("text", "dim", "ok", "fail", "wait", "run", "paused", "unfired", "cancel")
_ON_OWN = (("ok", "okground"), ("fail", "failground"), ("wait", "waitground"), ("dim", "noteground"))

#: how high a row is
SLOT = 20

_OVERLAPS = """(() => { const found = [];
for (const svg of document.querySelectorAll('.chunk > svg, .head > svg')) {
  const texts = [...svg.querySelectorAll('text')].map(text => [text.textContent, text.getBoundingClientRect()]);
  for (let i = 0; i < texts.length; i++) for (let j = 0; j < i; j++) {
    const [a, p] = texts[i], [b, q] = texts[j];
    if (p.left < q.right && q.left < p.right && p.top < q.bottom && q.top < p.bottom) found.push([a, b]);
  }
} return found; })()"""

_ROWS = """[...document.querySelectorAll('.chunk')].flatMap(chunk => [...chunk.querySelectorAll('.row')].map((row, place) =>
[row.getBoundingClientRect().top - chunk.getBoundingClientRect().top - 20 * place, row.getBoundingClientRect().height]))
.filter(([off, height]) => Math.abs(off) > 0.6 || Math.abs(height - 20) > 0.6)"""

# each arrow: whom it names, whether the row beside it names that, and how far its end is from the lane
_ARROWS = """[...document.querySelectorAll('.arrow')].map(arrow => {
  const to = arrow.dataset.to, svg = arrow.closest('svg'), top = svg.getBoundingClientRect().top;
  const box = arrow.getBoundingClientRect(), middle = (box.top + box.bottom) / 2;
  const row = svg.closest('.chunk').querySelectorAll('.row')[Math.floor((middle - top) / 20)];
  const lane = document.querySelector('[data-x][data-d="' + to + '"]');
  const x = lane ? Number(lane.dataset.x) + svg.getBoundingClientRect().left : NaN;
  const near = Math.min(Math.abs(x - box.left), Math.abs(x - box.right));
  return [to, (row.dataset.d || '').split(' ').includes(to), lane ? near : null];
})"""

_SMALL = """[...document.querySelectorAll('body *')].filter(element => [...element.childNodes].some(node => node.nodeType === 3
&& node.data.trim()) && element.tagName !== 'SCRIPT' && parseFloat(getComputedStyle(element).fontSize) < 11)
.map(element => element.outerHTML.slice(0, 80))"""

_WIDE = """(() => { const out = []; for (const element of document.querySelectorAll('main, main *')) {
  const box = element.getBoundingClientRect();
  if (box.width && (box.right > innerWidth + 0.5 || box.left < -0.5)) out.push(element.outerHTML.slice(0, 80)); }
return out; })()"""

# links that lead neither to a part of the page, nor to a row that is drawn, nor to a Deferred of the data, nor to a file
_DEAD = """(() => { const data = JSON.parse(document.getElementById('data').textContent), numbers = new Set(data.deferreds.numbers);
return [...document.querySelectorAll('a[href]')].filter(link => { const [name, number] = link.getAttribute('href').slice(1).split('=');
  if (name === 'row') return !(data.first < number && number <= data.first + data.kinds.length);
  if (name === 'd') return !numbers.has(Number(number));
  return link.target !== '_top' && name !== 'find' && !document.getElementById(name); }).map(link => link.outerHTML.slice(0, 80)); })()"""


def contrast(one: str, other: str) -> float:
    """How far two colours differ, by WCAG."""
    light = sorted(map(_luminance, (one, other)))
    return (light[1] + 0.05) / (light[0] + 0.05)


def _luminance(color: str) -> float:
    red, green, blue = (_linear(int(part) / 255) for part in re.findall(r"\d+", color)[:3])
    return 0.2126 * red + 0.7152 * green + 0.0722 * blue


def _linear(part: float) -> float:
    return part / 12.92 if part <= 0.03928 else math.pow((part + 0.055) / 1.055, 2.4)


class InBrowser(unittest.TestCase):
    """A browser, and a folder for pages."""

    browser: Browser

    @classmethod
    def setUpClass(cls) -> None:
        if found() is None:
            raise unittest.SkipTest("no Chromium is here; python/view_ci installs one")
        cls.browser = shared()
        folder = tempfile.TemporaryDirectory()
        cls.addClassCleanup(folder.cleanup)
        cls.path = Path(folder.name, "page.html")

    path: Path

    def setUp(self) -> None:
        self.browser.resize(1360, 1000)
        self.browser.look()
        self.browser.scripts(True)

    def show(self, run: Run, fragment: str = "") -> float:
        """Opens the page of a run, and tells how many seconds that took."""
        self.path.write_text(written_page(run), encoding="utf-8")
        return self.browser.open(self.path, fragment)

    def show_all(self, run: Run, fragment: str = "", width: int = 1360) -> None:
        """Opens the page of a run on a screen that is as high as the page, so that all rows are drawn."""
        self.browser.resize(width, 1000)
        self.show(run, fragment)
        self.show_rows(width)

    def show_rows(self, width: int = 1360) -> None:
        """Makes the screen as high as the page."""
        for _ in range(2):  # (the height of the page grows by what is drawn)
            self.browser.resize(width, 100 + self.asked("document.documentElement.scrollHeight"))
            self.browser.settle()

    def asked(self, expression: str) -> Any:
        """What JavaScript says."""
        return self.browser.ask(expression)

    def trouble(self) -> List[str]:
        """What the browser complains of, and what the page has asked for beside itself."""
        told: List[str] = []
        for event in self.browser.events:
            method, parameters = event.get("method"), event.get("params", {})
            if (
                method == "Network.requestWillBeSent"
                and parameters["request"]["url"] != self.path.resolve().as_uri()
            ):
                told.append(f"asks for {parameters['request']['url'][:80]}")
            if method in (
                "Log.entryAdded",
                "Runtime.exceptionThrown",
                "Runtime.consoleAPICalled",
                "Page.javascriptDialogOpening",
            ):
                told.append(json.dumps(parameters)[:200])
        return told


class Colors(InBrowser):
    """Every colour can be read on every ground."""

    def _colors(self) -> Dict[str, str]:
        names = [*_GROUNDS, *_COLORS, *(ground for _, ground in _ON_OWN)]
        self.show(samples.recorded())
        expression = (
            "(() => { const probe = document.createElement('i'); document.body.append(probe); const said = {};"
            f"for (const name of {json.dumps(names)}) {{ probe.style.color = 'var(--' + name + ')';"
            " said[name] = getComputedStyle(probe).color; } probe.remove(); return said; })()"
        )
        colors: Dict[str, str] = self.asked(expression)
        return colors

    def test_on_a_screen_and_on_paper(self) -> None:
        seen = set()
        for dark, printed in ((False, False), (True, False), (False, True), (True, True)):
            self.browser.look(dark, printed)
            colors = self._colors()
            seen.add(colors["page"])
            pairs = [(color, ground) for color in _COLORS for ground in _GROUNDS] + list(_ON_OWN)
            for color, ground in pairs:
                self.assertGreaterEqual(
                    contrast(colors[color], colors[ground]),
                    4.5,
                    f"{color} on {ground}, {dark=}, {printed=}",
                )
        self.assertEqual(len(seen), 2)

    def test_no_state_and_no_arrow_is_told_by_colour_alone(self) -> None:
        self.show(samples.recorded())
        drawn = self.asked(
            "[...document.querySelectorAll('.legend svg')].map(svg => [...svg.children].map(shape => {"
            " const style = getComputedStyle(shape); return [shape.tagName, shape.getAttribute('d'), style.strokeWidth,"
            " style.strokeDasharray]; }).join())"
        )
        self.assertEqual(len(drawn), 13)
        self.assertEqual(len(drawn), len(set(drawn)))


class Hostile(InBrowser):
    """Texts of strangers are shown as they are, and do nothing."""

    def _harm(self) -> List[str]:
        """What the hostile texts have done."""
        done = self.trouble()
        if self.asked("window.harm") is not None:
            done.append("a script of theirs has run")
        for selector in (
            "img",
            "iframe",
            "b[onmouseover]",
            "svg[onload]",
            "a[href^=javascript]",
            "[onclick]",
            "main script",
            "main style",
        ):
            if self.asked(f"document.querySelector({json.dumps(selector)}) !== null"):
                done.append(selector)
        return done

    def test_they_do_nothing(self) -> None:
        self.show(samples.hostile())
        self.assertEqual(self._harm(), [])

    def test_they_are_shown_as_they_are(self) -> None:
        self.show_all(samples.hostile())
        notes = self.asked(
            "[...document.querySelectorAll('.row .k-note')].map(word => word.parentElement.querySelector('bdi').textContent)"
        )
        written = [json.dumps(text, ensure_ascii=False) for text in samples.HOSTILE]
        self.assertEqual(notes, [visible(shortened(f"note {text}", 1000))[5:] for text in written])
        self.assertEqual(self.asked("document.title"), visible("".join(samples.HOSTILE[:8])))

    def test_without_the_escaping_it_would_be_seen(self) -> None:
        with mock.patch("deferreds.view.markup.escaped", Html), mock.patch("deferreds.view.page.escaped", Html):
            self.show(samples.hostile())
        self.assertNotEqual(self._harm(), [])

    def test_a_script_of_theirs_would_not_run_even_so(self) -> None:
        with mock.patch("deferreds.view.markup.escaped", Html), mock.patch("deferreds.view.page.escaped", Html):
            self.show(samples.hostile())
        self.assertIsNone(self.asked("window.harm"))
        self.assertFalse(
            [
                event
                for event in self.browser.events
                if "127.0.0.1" in json.dumps(event) and event.get("method") == "Network.responseReceived"
            ]
        )


class Geometry(InBrowser):
    """What stands where."""

    def _runs(self) -> Iterator[samples.Sample]:
        yield from samples.rows()
        yield from samples.told_by_the_program()
        yield samples.Sample("recorded", samples.recorded())
        yield samples.Sample("hostile", samples.hostile())
        yield samples.Sample("long", samples.long(600))
        yield samples.Sample("wide", samples.wide(600))

    def test_of_all_kinds_of_runs(self) -> None:
        arrows = 0
        for sample in self._runs():
            self.show_all(sample.run)
            self.assertEqual(
                self.asked(_ROWS), [], f"{sample.name}: rows are {SLOT} px high and in place"
            )
            self.assertEqual(self.asked(_OVERLAPS), [], f"{sample.name}: texts overlap")
            self.assertEqual(self.asked(_DEAD), [], f"{sample.name}: links without a target")
            self.assertEqual(self.asked(_SMALL), [], f"{sample.name}: texts that are too small")
            for to, is_named, distance in self.asked(_ARROWS):
                arrows += 1
                self.assertTrue(
                    is_named, f"{sample.name}: an arrow to #{to} in a row that doesn't name it"
                )
                self.assertIsNotNone(distance, f"{sample.name}: no lane of #{to} beside its arrow")
                self.assertLess(
                    distance, 8, f"{sample.name}: an arrow that doesn't end at the lane of #{to}"
                )
            self.assertEqual(self.trouble(), [], sample.name)
        self.assertGreater(arrows, 500)

    def test_nothing_scrolls_sideways_but_the_lanes(self) -> None:
        for width in (1360, 820, 400):
            self.browser.resize(width, 900)
            for run in (samples.recorded(), samples.hostile(), samples.long(300)):
                self.show(run)
                self.assertEqual(self.asked(_WIDE), [], f"{run.title[:20]} at {width} px")
                self.asked("scrollTo(100000, document.getElementById('chart').offsetTop)")
                self.browser.settle()
                self.browser.settle()
                wide = self.asked("document.getElementById('chart').getBoundingClientRect().width")
                self.assertEqual(self.asked("scrollX"), max(0, wide - width))
                sides = "[...document.querySelectorAll('main, .side, .what')].map(part => Math.round(part.getBoundingClientRect().left))"
                self.assertEqual(set(self.asked(sides)), {0}, f"{run.title[:20]} at {width} px")
                side = self.asked("document.querySelector('.side').getBoundingClientRect().width")
                self.assertLessEqual(side, width if width <= NARROW else 0.621 * width)
                self.assertEqual(self.asked("document.scrollingElement.scrollWidth"), max(width, wide))


class Focus(InBrowser):
    """One Deferred is chosen: all but its rows, lane and arrows fade."""

    def _on(self) -> List[str]:
        rows: List[str] = self.asked("[...document.querySelectorAll('.row.on')].map(row => row.id)")
        return rows

    def _named(self, number: int) -> List[str]:
        """The rows that touch a Deferred, by their ids."""
        return [f"r{row.place + 1}" for row in samples.recorded().fold.rows if number in row.names]

    def _choose(self, number: int) -> None:
        """Clicks a Deferred in the chart, and waits until its rows look so."""
        self.asked(f"document.querySelector('#chart [data-f=\"{number}\"]').click()")
        self.browser.settle()

    def test_a_click_chooses_and_escape_ends_it(self) -> None:
        self.show_all(samples.recorded())
        self._choose(1)
        self.assertEqual(self._on(), self._named(1))
        self.assertTrue(self._on())
        self.assertTrue(self.asked("document.getElementById('focus').textContent.startsWith('#1:')"))
        stories = samples.recorded().stories.of
        awaited = {number: {step.other for step in steps if step.does in (Does.WAITS, Does.CHILD, Does.CHAIN)} for number, steps in stories.items()}
        near = awaited[1] | {number for number, others in awaited.items() if 1 in others}
        rows = [f"r{row.place + 1}" for row in samples.recorded().fold.rows if near.intersection(row.names)]
        self.assertTrue(rows)
        self.assertEqual(self.asked("[...document.querySelectorAll('.row.by')].map(row => row.id)"), rows)
        rest = ":not(.on):not(.by)"
        faded = f"[...document.querySelectorAll('.row{rest}, .lane{rest}, .arrow{rest}')].every(part => getComputedStyle(part).opacity < 0.5)"
        clear = (
            "[...document.querySelectorAll('.on, .by')].every(part => getComputedStyle(part).opacity >= 0.4)"
        )
        self.assertTrue(self.asked(faded) and self.asked(clear))
        self.browser.press("Escape")
        self.assertEqual(self._on(), [])
        self.assertTrue(
            self.asked("document.getElementById('focus').hidden && document.querySelector('.column') === null")
        )

    def test_a_second_click_ends_it_too(self) -> None:
        self.show_all(samples.recorded())
        for expected in (True, False):
            self._choose(0)
            self.assertEqual(bool(self._on()), expected)

    def test_n_and_p_go_to_the_next_row_and_back(self) -> None:
        self.show(samples.recorded())
        self._choose(0)
        self.asked("document.getElementById('r1').scrollIntoView({block: 'center'})")
        tops = []
        for key in ("n", "n", "n", "p", "p"):
            self.browser.press(key)
            self.browser.settle()
            tops.append(self.asked("scrollY"))
        self.assertTrue(tops[0] < tops[1] < tops[2], tops)
        self.assertEqual(tops[3:], [tops[1], tops[0]])

    def test_by_the_keyboard_alone(self) -> None:
        self.show_all(samples.recorded())
        self.browser.press("Tab")
        self.assertEqual(self.asked("document.activeElement.id"), "skip")
        self.browser.press("Enter")
        self.assertEqual(self.asked("document.activeElement.id"), "chart")
        self.browser.press("Home")
        for _ in range(8):
            self.browser.press("ArrowDown")
        self.assertEqual(self.asked("document.getElementById('chart').getAttribute('aria-activedescendant')"), "r9")
        first = samples.recorded().fold.rows[8].names
        for number in first:
            self.browser.press("Enter")
            self.assertEqual(self._on(), self._named(number))
        self.browser.press("Enter")
        self.assertEqual(self._on(), [])
        for key, row in (("End", 276), ("ArrowUp", 275), ("Home", 1), ("ArrowUp", 1)):
            self.browser.press(key)
            self.assertEqual(self.asked("document.querySelector('.row.here').id"), f"r{row}")
        self.browser.press("Escape")
        self.assertEqual(self.asked("document.querySelectorAll('.row.here').length"), 0)

    def test_keys_reach_the_first_line_below_the_head_of_an_event(self) -> None:
        events = [["deferred", "d"], ["callback", "d", 1]]
        self.show(run_of_journal("new #0 d\nadd #0\nfire #0 ok 1\nrun #0\nset #0 ok 1\n", "t", Script({"events": events}), False, [0, 2]))
        self.assertEqual(self.asked("document.querySelector('#chart .row').className"), "row ev")
        self.asked("document.getElementById('chart').focus()")
        for key, row in (("End", 5), ("Home", 1), ("End", 5), ("PageUp", 1), ("PageDown", 5)):
            self.browser.press(key)
            self.assertEqual(self.asked("document.querySelector('.row.here').id"), f"r{row}", key)

    def test_n_and_p_go_on_from_the_row_that_is_chosen_however_high_it_stands(self) -> None:
        self.show(samples.recorded(), "#f=0&row=1")
        rows = [int(name[1:]) for name in self._named(0)]
        for key, row in (("n", rows[1]), ("n", rows[2]), ("p", rows[1]), ("p", rows[0]), ("p", rows[0])):
            self.browser.press(key)
            self.browser.settle()
            self.assertEqual(self.asked("document.querySelector('.row.here').id"), f"r{row}")

    def test_rows_are_rows_for_who_hears_them(self) -> None:
        run = samples.recorded()
        self.show_all(run)
        grid = "['role', 'aria-rowcount', 'tabindex'].map(name => document.getElementById('chart').getAttribute(name))"
        self.assertEqual(self.asked(grid), ["grid", str(len(run.fold.rows)), "0"])
        rows = "[...document.querySelectorAll('.row[id]')].map(row => [row.getAttribute('role'), Number(row.getAttribute('aria-rowindex'))])"
        self.assertEqual(self.asked(rows), [["row", number] for number in range(1, len(run.fold.rows) + 1)])
        loose = "[...document.querySelectorAll('.row[role] > *')].filter(part => part.tagName !== 'I' && part.className !== 'x' && part.getAttribute('role') !== 'gridcell').length"
        self.assertEqual(self.asked(loose), 0)

    def test_the_column_stands_behind_the_lane(self) -> None:
        self.show_all(samples.recorded())
        self._choose(3)
        places = self.asked(
            "['.column', '[data-x][data-d=\"3\"] circle'].map(name => document.querySelector(name).getBoundingClientRect())"
            ".map(box => (box.left + box.right) / 2)"
        )
        self.assertAlmostEqual(places[0], places[1], delta=1)


class Find(InBrowser):
    """A text is looked for in rows and outcomes: by name, value, kind of line or outcome."""

    def find(self, text: str) -> List[str]:
        """Looks for a text by the keys, and returns the rows that stay."""
        self.browser.press("/")
        self.asked(
            f"(() => {{ const find = document.getElementById('find'); find.value = {json.dumps(text)};"
            " find.dispatchEvent(new Event('input')); })()"
        )
        rows: List[str] = self.asked("[...document.querySelectorAll('.row.hit')].map(row => row.id)")
        return rows

    def test_by_name_value_kind_and_outcome(self) -> None:
        run = samples.recorded()
        self.show_all(run)
        self.assertTrue(self.asked("document.getElementById('search').hidden"))
        lines = [row.entry.line for row in run.fold.rows]
        waits = [f"r{place + 1}" for place, line in enumerate(lines) if "wait" in line]
        found = self.find("WAIT ")
        self.assertEqual(self.asked("document.activeElement.id"), "find")
        self.assertTrue(found)
        self.assertLessEqual(set(found), set(waits))
        some = next(record for record in run.fold.records.values() if record.name)
        self.assertIn(f"r{some.row + 1}", self.find(some.name))
        self.assertRegex(self.asked("document.getElementById('found').textContent"), r"^\d+ lines$")
        self.asked("document.getElementById('good').open = true")
        self.browser.settle()
        self.find("✓ ok")
        shown = "[...document.querySelectorAll('.ends tr[data-d]')].filter(row => getComputedStyle(row).display !== 'none').length"
        good = sum(record.end.startswith("ok ") for record in run.fold.records.values())
        self.assertEqual(self.asked(shown), good)
        faded = "[...document.querySelectorAll('.row[id]:not(.hit)')].every(row => getComputedStyle(row).opacity < 0.5)"
        self.assertTrue(self.asked(faded))
        self.browser.press("Escape")
        self.assertEqual(self.asked("document.querySelectorAll('.hit').length"), 0)
        self.assertEqual(self.asked(shown), len(run.fold.records))
        self.assertTrue(self.asked("document.getElementById('search').hidden && document.getElementById('focus').hidden"))

    def test_it_says_which_of_how_many_and_goes_round(self) -> None:
        run = samples.recorded()
        self.show(run)
        count = len(self.find("new #")) and sum("new #" in row.entry.line for row in run.fold.rows)
        found = "document.getElementById('found').textContent"
        self.assertEqual(self.asked(found), f"{count} lines")
        said = []
        for name in ("next", "next", "previous", "previous"):
            self.asked(f"[...document.querySelectorAll('#search button')].find(button => button.textContent === '{name}').click()")
            said.append(self.asked(found))
        self.assertEqual(said, [f"1 of {count}", f"2 of {count}", f"1 of {count}", f"{count} of {count}"])
        row = [row.place for row in run.fold.rows if "new #" in row.entry.line][-1]
        self.assertEqual(self.asked("document.querySelector('.row.here').id"), f"r{row + 1}")
        self.assertTrue(0 < self.asked("document.querySelector('.row.here').getBoundingClientRect().top") < 1000)

    def test_an_address_says_which_of_them_it_leads_to(self) -> None:
        rows = [row.place + 1 for row in samples.recorded().fold.rows if "new #" in row.entry.line]
        for row, said in ((rows[2], f"3 of {len(rows)}"), (rows[0] + 1, f"{len(rows)} lines")):
            self.show(samples.recorded(), f"#row={row}&find=new+%23")
            self.assertEqual(self.asked("document.getElementById('found').textContent"), said)

    def test_keys_go_from_one_to_the_next(self) -> None:
        run = samples.recorded()
        self.show(run)
        self.find("new #")
        rows = [f"r{row.place + 1}" for row in run.fold.rows if "new #" in row.entry.line]
        found = []
        for key in ("Enter", "Enter", "Enter"):
            self.browser.press(key)
            found.append(self.asked("document.querySelector('.row.here').id"))
        self.asked("document.getElementById('find').blur()")
        for key in ("n", "p", "p"):
            self.browser.press(key)
            found.append(self.asked("document.querySelector('.row.here').id"))
        self.assertEqual(found, [*rows[:4], rows[2], rows[1]])

    def test_the_link_asks_too_and_letters_are_letters_there(self) -> None:
        self.show(samples.recorded())
        self.browser.click('nav [href="#find"]')
        for key in ("n", "p", "/"):
            self.browser.press(key)
        self.assertEqual(self.asked("document.getElementById('find').value"), "np/")

    def test_hostile_texts_are_looked_for_as_they_are(self) -> None:
        self.show_all(samples.hostile())
        for text in samples.HOSTILE[:8]:
            shown = json.dumps(text, ensure_ascii=False)
            self.assertEqual(len(self.find(shown)), 4, text)
            self.assertEqual(self.asked("document.getElementById('found').textContent"), "4 lines")
        self.assertEqual(self.trouble(), [])
        self.assertIsNone(self.asked("window.harm"))
        self.assertTrue(self.asked("document.getElementById('found').children.length === 0"))


class WithoutScripts(InBrowser):
    """The report and the first lines show where no script runs."""

    def test_report_and_lines(self) -> None:
        self.browser.scripts(False)
        for run in (samples.recorded(), samples.long(700), samples.hostile()):
            self.show(run)
            shown = [visible(shortened(row.entry.line, 200)) for row in run.fold.rows[:MOST_PLAIN]]
            self.assertEqual(self.asked("document.querySelector('noscript pre').textContent"), "\n".join(shown))
            self.assertTrue(self.asked("document.querySelector('noscript p').getBoundingClientRect().height > 0"))
            self.assertTrue(self.asked("['chart', 'above', 'search'].every(id => document.getElementById(id).hidden)"))
            self.assertIsNone(self.asked("window.harm"))


class Paper(InBrowser):
    """The page as it is printed."""

    def test_it_fits_the_paper_and_is_bounded(self) -> None:
        target, pages = self.path.with_suffix(".pdf"), []
        for run in (samples.recorded(), samples.long(600), samples.long(20_000)):
            self.show(run)
            self.browser.print(target)
            data = target.read_bytes()
            widths = {float(box.split()[2]) for box in re.findall(rb"/MediaBox \[([^\]]*)\]", data)}
            self.assertEqual(len(widths), 1)
            self.assertGreaterEqual(widths.pop() / 0.75 + 1, self.asked("document.getElementById('chart').offsetWidth"))
            pages.append(data.count(b"/Type /Page\n") + data.count(b"/Type /Page "))
        self.assertGreaterEqual(pages[0], 2)
        self.assertLess(max(pages), 40)

    def test_what_is_only_for_a_screen_isn_t_printed(self) -> None:
        self.browser.look(printed=True)
        self.show(samples.recorded())
        self.assertEqual(
            self.asked(
                "['.head', '#focus', '#search', 'nav'].map(name => getComputedStyle(document.querySelector(name)).display)"
            ),
            ["none"] * 4,
        )


if __name__ == "__main__":
    unittest.main()
