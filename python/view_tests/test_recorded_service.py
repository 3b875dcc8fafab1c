"""The recorded service of docs/VIEW.md, with the answer that it loses: its pages show what the page says of them."""

from __future__ import annotations

import html
import re
import unittest
from typing import List

from deferreds.checkout import TOP
from deferreds.view.compared import Compared
from deferreds.view.compared_forms import ComparedPage
from deferreds.view.inputs import Inputs, read_any
from deferreds.view.page import written_page
from deferreds.view.run import Run
from deferreds.view.terminal import Terminal

from .test_browser import InBrowser

_EXAMPLES = TOP / "examples" / "python"
_MOST_BYTES = 150_000


def _run(name: str) -> Run:
    """The run of a recorded script, with what stands beside it."""
    return Inputs(str(_EXAMPLES / f"{name}.json")).run()


def _text(page: str) -> str:
    """What a page says."""
    return html.unescape(re.sub(r"<[^>]*>", "", page))


def _notes(run: Run) -> List[str]:
    """What the program printed."""
    return [row.entry.line[row.entry.head :] for row in run.fold.rows if row.entry.word == "note"]


class Recordings(unittest.TestCase):
    """The two scripts that were recorded."""

    def test_they_still_print_what_twisted_did(self) -> None:
        for name in ("lost_answer", "lost_answer_mended"):
            run = _run(name)
            lines = [row.entry.line for row in run.fold.rows]
            lines += [f"#{one.number} {one.name or '-'} {one.end}" for one in run.fold.records.values()]
            self.assertEqual(lines, (_EXAMPLES / f"{name}.journal").read_text(encoding="utf-8").splitlines())

    def test_their_places_are_lines_of_the_programs_that_stand_here(self) -> None:
        for name in ("lost_answer", "lost_answer_mended"):
            run = _run(name)
            for record in run.fold.records.values():
                place = run.places.of_deferred(record.names)
                assert place is not None, record.name
                line = (_EXAMPLES / place.file.rpartition("/")[2]).read_text(encoding="utf-8").splitlines()[place.line - 1]
                function = re.sub(r"_\d+(_\d+)?$", "", record.name)
                made = {"_connect": "connectTCP", "loseConnection": "stopListening", "ask": "Deferred", "answer": "deferLater", "run": "reactor.run",
                        "shop": "reactor.run", "lineReceived": "turn.run", "price": "price(", "serve_customers": "yield"}  # fmt: skip
                self.assertIn(made[function], line, record.name)


class Shown(unittest.TestCase):
    """The report and the comparison."""

    def test_the_report_has_the_answer_that_nobody_got(self) -> None:
        run = _run("lost_answer")
        said = _text(written_page(run))
        for text in (
            "nothing is left unfired",
            "1 to note",
            'was swallowed: nobody got "milk costs 1"',
            'callback ask_25_2 "milk costs 1" at lost_answer.py:40',
            "made at lost_answer.py:25",
        ):
            self.assertIn(text, said)
        self.assertEqual(_notes(run)[1:3], ['"asked for coffee: no answer in time"', '"asked for milk: sugar costs 2"'])

    def test_its_tree_says_what_it_asked_for(self) -> None:
        head, *lines = Terminal(_run("lost_answer"), False).tree(7)
        self.assertIn("1 firing swallowed in line ", head)
        self.assertTrue(any(line.split("├ ")[1].startswith('note "asked for coffee: no answer in time"') for line in lines))
        self.assertIn('├ swallow #7 ← event 22 callback ask_25_2 "milk costs 1"', lines[-1])

    def test_the_comparison_begins_where_the_mended_client_gets_the_late_answer(self) -> None:
        compared = Compared(*(read_any(str(_EXAMPLES / f"{name}.json")) for name in ("lost_answer", "lost_answer_mended")))
        ends = {(one.first.end, one.second.end) for one in compared.outcomes if one.first and one.second}
        self.assertEqual(ends, {('ok "sugar costs 2"', 'ok "milk costs 1"'), ('ok "no answer in time"', 'ok "sugar costs 2"')})
        self.assertEqual(len(compared.outcomes), 2)
        row = compared.second.run.fold.rows[compared.common[1]]
        self.assertEqual((row.entry.line, compared.second.lacks(row)), ("swallow #7", '"coffee costs 5"'))
        self.assertIn('swallow #7 "coffee costs 5"', _text(ComparedPage(compared).html()))


class Pictures(unittest.TestCase):
    """The pictures that docs/VIEW.md has of them."""

    def test_they_are_small_and_are_made_by_the_script(self) -> None:
        shown = re.findall(r"\(pictures/(\w+)\.png\)", (TOP / "docs" / "VIEW.md").read_text(encoding="utf-8"))
        made = re.findall(r"^picture (\w+) ", (TOP / "docs" / "pictures" / "make").read_text(encoding="utf-8"), re.MULTILINE)
        self.assertEqual(sorted(made), sorted(shown))
        self.assertEqual(sorted(path.stem for path in (TOP / "docs" / "pictures").glob("*.png")), sorted(shown))
        for path in (TOP / "docs" / "pictures").glob("lost_answer*.png"):
            self.assertLess(path.stat().st_size, _MOST_BYTES, path.name)


class Followed(InBrowser):
    """From the report to the cause, by links alone."""

    def test_the_links_lead_from_the_report_to_what_it_asked_for(self) -> None:
        self.path.write_text(written_page(_run("lost_answer")), encoding="utf-8")
        self.browser.open(self.path)
        self.browser.click(".report .note a[href^='#d=']")
        self.browser.settle()
        said = self.asked("document.getElementById('tree').innerText")
        self.assertIn("1 firing swallowed in line\u00a0180", said)
        self.assertIn('note "asked for coffee: no answer in time"', said)
        self.assertIn("swallow #7 ask_25_2", said)
        self.assertIn('callback ask_25_2 "milk costs 1"', said)


if __name__ == "__main__":
    unittest.main()
