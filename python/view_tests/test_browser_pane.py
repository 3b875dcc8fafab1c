"""The pane in a real browser: the row that is chosen, its line of the program, and the editor."""

from __future__ import annotations

import json
import unittest

from deferreds.view.places import Place, Places
from deferreds.view.run import run_of_journal
from deferreds.view.terminal import Terminal

from . import samples
from .test_browser import InBrowser
from .test_services import run_of_service

_PANE = "document.getElementById('whole')"


class Pane(InBrowser):
    """What it shows, and what its buttons do."""

    def said(self) -> str:
        """What the pane says."""
        text: str = self.asked(f"{_PANE}.hidden ? '' : {_PANE}.innerText")
        return text

    def touch(self, row: int) -> str:
        """Clicks a row."""
        self.asked(f"document.querySelector('#r{row} .t').click()")
        return self.said()

    def first(self, word: str) -> int:
        """The number of the first row of a word in the recorded service."""
        return next(row.place + 1 for row in run_of_service("ledger").fold.rows if row.entry.word == word)

    def test_it_has_the_lines_around_the_row_s_own(self) -> None:
        row = self.first("await")
        self.show(run_of_service("ledger"), f"#row={row}")
        said = self.touch(row)
        run = run_of_service("ledger")
        place = run.row_places.of(run.fold.rows[row - 1])
        assert place is not None
        self.assertIn(f"{place.whole} in ", said)
        for line in run.places.source_of(place):
            self.assertIn(line.text.strip(), said)
        self.assertIn(f"{place.line}", self.asked(f"{_PANE}.querySelector('.at-line').textContent"))
        self.browser.press("Escape")
        self.assertEqual(self.said(), "")
        self.assertEqual(self.trouble(), [])

    def test_it_follows_the_arrow_keys(self) -> None:
        row = self.first("await")
        self.show(run_of_service("ledger"), f"#row={row}")
        before = self.touch(row)
        self.asked("document.getElementById('chart').focus({preventScroll: true})")
        self.browser.press("ArrowDown")
        self.assertNotEqual(self.said(), before)
        self.assertEqual(self.asked(f"{_PANE}.hidden"), False)
        self.browser.press(" ")
        self.assertEqual(self.said(), "")

    def test_it_says_who_called_what_made_a_deferred(self) -> None:
        run = run_of_service("ledger")
        made = next(record for record in run.fold.records.values() if len((run.places.stack_of(record.names) or [[]])[0]) > 1)
        frame = run.places.stack_of(made.names)[0][1]
        self.show(run, f"#row={made.row + 1}")
        self.assertIn(f"called by {frame.function} {frame.place.text}", self.touch(made.row + 1))

    def test_a_row_without_a_place_has_its_text_alone(self) -> None:
        self.show(samples.recorded())
        self.assertEqual(self.touch(2), samples.recorded().fold.rows[1].entry.line)
        self.assertEqual(self.asked(f"{_PANE}.querySelectorAll('button, input').length"), 0)

    def test_the_address_of_an_editor_is_kept_and_does_no_harm(self) -> None:
        run = run_of_journal("new #0 d\n", "t")
        run.places = Places({"d": Place("/srv/a b/<i>.py", 12)}, {})
        link = f"{_PANE}.querySelector('.place a')"
        for text, address in (
            ("vscode://file/{path}:{line}", "vscode://file//srv/a%20b/%3Ci%3E.py:12"),
            ("javascript:window.harm=1", None),
            (" JavaScript:window.harm=1//{path}", None),
            ("data:text/html,x", None),
            ("no address", None),
            ("editor://open?file={path}&line={line}", "editor://open?file=/srv/a%20b/%3Ci%3E.py&line=12"),
        ):
            self.show(run)
            self.touch(1)
            self.asked(f"(() => {{ const field = document.getElementById('editor'); field.value = {json.dumps(text)}; field.dispatchEvent(new Event('change')); }})()")
            self.assertEqual(self.asked(f"{link} && {link}.getAttribute('href')"), address, text)
            self.show(run)
            self.touch(1)
            self.assertEqual(self.asked("document.getElementById('editor').value"), text.strip())
        self.asked("localStorage.clear()")
        self.assertIsNone(self.asked("window.harm"))
        self.assertEqual(self.trouble(), [])

    def test_copying_says_that_it_has(self) -> None:
        run = run_of_journal("new #0 d\n", "t")
        run.places = Places({"d": Place("/srv/a.py", 12)}, {})
        self.show(run)
        self.touch(1)
        self.browser.click("#whole button")
        self.assertRegex(self.asked(f"{_PANE}.querySelector('.place > .facts').textContent"), "^(copied|can't be copied)$")
        self.assertEqual(self.asked("document.querySelectorAll('textarea').length"), 0)

    def test_a_row_of_the_report_is_copied_as_a_terminal_shows_it(self) -> None:
        run = run_of_service("ledger")
        self.show(run)
        self.asked("document.addEventListener('copy', () => { window.got = document.activeElement.value; })")
        for number, finding in enumerate(run.report.findings):
            self.browser.click(f"[data-copy='{number}'] button")
            self.assertEqual(self.asked("window.got"), Terminal(run, False).copied(finding))
            self.assertRegex(self.asked(f"document.querySelector(\"[data-copy='{number}']\").innerText"), "(copied|can't be copied)$")
        self.assertEqual(self.asked("document.querySelectorAll('[data-copy]').length"), len(run.report.findings))
        self.assertEqual(self.trouble(), [])

    def test_hostile_sources_are_texts(self) -> None:
        run = run_of_journal("new #0 d\n", "t")
        lines = list(samples.HOSTILE)[:12]
        run.places = Places({"d": Place("/srv/a.py", 6)}, {}, None, {"/srv/a.py": [(1, lines)]})
        self.show(run)
        said = self.touch(1)
        for line in lines[2:9]:
            self.assertIn(line, said)
        self.assertIsNone(self.asked("window.harm"))
        self.assertEqual(self.asked(f"{_PANE}.querySelectorAll('img, script, svg, iframe, style, [onclick]').length"), 0)
        self.assertEqual(self.trouble(), [])


if __name__ == "__main__":
    unittest.main()
