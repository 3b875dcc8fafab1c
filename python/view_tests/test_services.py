"""Recorded services with real bugs: the first screen names the cause, and the line of the program. A mended one has none.

The programs are in `data/services` of this folder's parent, and were recorded in /srv/shop.
"""

from __future__ import annotations

import html
import json
import re
import unittest
from pathlib import Path
from typing import Dict, List, NamedTuple

from deferreds.view.as_json import AsJson
from deferreds.view.findings import Finding, Kind, Severity
from deferreds.view.inputs import Inputs
from deferreds.view.page import written_page
from deferreds.view.places import Place, Places, read_places
from deferreds.view.run import Run
from deferreds.view.terminal import Terminal

from . import samples
from .test_browser import InBrowser
from .test_page import data_of

_RECORDINGS = Path(__file__).resolve().parent / "data" / "services"
_PROGRAMS = Path(__file__).resolve().parents[1] / "data" / "services"
_SCREEN = 900


class Cause(NamedTuple):
    """What the first row of a report says: its kind, and texts that it has; and lines of the program, each with what is there."""

    kind: Kind
    says: List[str]
    lines: Dict[str, str]


_CAUSES = {
    "ledger": Cause(
        Kind.HELD,
        [
            "transfer(source='dan', target='bob', amount=9) (",
            "transfer_48_5) took a token",
            "never released it",
            'failed with Refused "dan has 5, not 9"',
            "do_balance_40_4 waits for a token",
            "called as do_balance(name='dan')",
        ],
        {"ledger.py:53": "await self.lock(second).acquire()", "ledger.py:40": "yield lock.acquire()"},
    ),
    "payments": Cause(
        Kind.SWALLOWED,
        ['nobody got "receipt-13 card-6 312"', "13 were made there: 12 ok, 1 cancelled", "ask_33_13, fired with ok \"receipt-12 card-6 312\""],
        {"wire.py:33": "defer.Deferred()", "wire.py:41": "answer.callback(", "payments.py:46": 'self.bank.ask("charge"', "payments.py:47": "answer.addTimeout(", "payments.py:61": "charge("},
    ),
    "payments_small": Cause(
        Kind.ODD,
        ["was unfired for 0.12 s, and then cancelled", "6 were made there: 5 ok, 1 cancelled", "charge_61_4 made another there", "a guess"],
        {"wire.py:33": "defer.Deferred()", "payments_small.py:46": 'self.bank.ask("charge"'},
    ),
    "warehouse": Cause(
        Kind.ODD,
        ["was unfired for 1.", "order(number=7, town='Ripon'", "17 were made there: 15 ok, 1 cancelled, 1 fail", "order_103_7), made at warehouse.py:103, awaited it at warehouse.py:67", "the others were fired at wire.py:41 (15), wire.py:43 (1)", "a guess"],
        {"wire.py:41": "answer.callback(", "wire.py:43": "answer.errback(", "wire.py:33": "defer.Deferred()", "warehouse.py:103": "shop.order(", "warehouse.py:67": 'await self.warehouse.ask("reserve"'},
    ),
    "stock_levels": Cause(
        Kind.OVERTAKEN,
        ["the result of the job of #2·refresh_33 came after that of #6·refresh_33_2, which began later", "ok 12 for #1·refresh_45 and line 39: ok 7 for #5·refresh_45_2", "a guess"],
        {"stock_levels.py:33": "threads.deferToThread(self.store.read, item)"},
    ),
    "mailer": Cause(
        Kind.GETTER,
        ["1 Deferred waits for a value", "the inline body of #2·work_26", "#2·work_26, made at mailer.py:26, got 3 values of it", "#6·work_30, made at mailer.py:30, got 3 values of it, and ended in line ", ", after the last one: null"],
        {"mailer.py:35": "self.letters.get()", "mailer.py:26": "self.work()", "mailer.py:30": "self.work()"},
    ),
    "transfers": Cause(
        Kind.CIRCLE,
        ["each is held by a body that awaits the next", "#6·transfer_32 took lock_transfer_15", "#9·transfer_32_2 took lock_transfer_18"],
        {"transfers.py:15": "yield source.lock.acquire()", "transfers.py:18": "yield target.lock.acquire()"},
    ),
    "feeds": Cause(
        Kind.WENT_ON,
        ["read_58_4", "went on after it was cancelled", 'failed with RemoteError "stocks"', "a guess"],
        {"feeds.py:58": "reader.read(feed)", "feeds.py:43": "task.deferLater", "feeds.py:61": 'reading["stocks"].cancel()'},
    ),
    "crawler": Cause(
        Kind.KEPT,
        ["fetch(path='/archive') (", 'got "<Client 1>" from queue_connect_38', "didn't put it back", "nor did fetch(path='/search')", "a guess"],
        {"crawler.py:47": "yield self.idle.get()", "crawler.py:54": "self.idle.put(client)", "crawler.py:31": "defer.DeferredQueue()"},
    ),
    "uploads": Cause(
        Kind.NOT_RETURNED,
        ["a callback of #5·do_upload_39 made #6·save_45", "didn't return it", "fired with: ok 11", "3 others of this line", "a guess"],
        {"uploads.py:45": "threads.deferToThread(self.disk.write", "uploads.py:40": "done.addCallback(self.save"},
    ),
}

_MENDED = ("ledger", "payments", "warehouse", "stock_levels", "mailer", "transfers", "uploads")
#: mended services in which late answers to what was cancelled are dropped
_DROPPING = ("feeds", "crawler")


def run_of_service(name: str) -> Run:
    """The run of a recorded service, with what stands beside its script."""
    return Inputs(str(_RECORDINGS / f"{name}.json")).run()


def places_of_service(name: str, *but: str) -> Places:
    """The places of a recorded service, without these keys: an earlier version has written none of them."""
    told = json.loads((_RECORDINGS / f"{name}.places.json").read_text(encoding="utf-8"))
    return read_places(json.dumps({key: value for key, value in told.items() if key not in but}))


def _said(run: Run, finding: Finding) -> str:
    terminal = Terminal(run, False)
    return " | ".join(map(terminal.said, (finding.said, *finding.details)))


class Causes(unittest.TestCase):
    """The reports of the services."""

    def test_the_first_row_names_the_cause_and_the_line_of_the_program(self) -> None:
        for name, cause in _CAUSES.items():
            with self.subTest(name):
                run = run_of_service(name)
                first = run.report.findings[0]
                self.assertEqual(first.kind, cause.kind)
                for text in (*cause.says, *cause.lines):
                    self.assertIn(text, _said(run, first))

    def test_the_lines_are_those_of_the_programs(self) -> None:
        for cause in _CAUSES.values():
            for place, there in cause.lines.items():
                file, _, line = place.partition(":")
                self.assertIn(there, (_PROGRAMS / file).read_text(encoding="utf-8").splitlines()[int(line) - 1])

    def test_a_mended_service_has_none(self) -> None:
        for name in _MENDED:
            with self.subTest(name):
                run = run_of_service(f"{name}_mended")
                self.assertEqual([_said(run, finding) for finding in run.report.findings], [])
                self.assertIn('<span class="verdict clean">nothing is left unfired</span>', written_page(run))

    def test_a_late_answer_to_what_was_cancelled_on_purpose_is_only_a_note(self) -> None:
        for name in _DROPPING:
            run = run_of_service(f"{name}_mended")
            self.assertEqual({finding.kind for finding in run.report.findings}, {Kind.SWALLOWED})
            self.assertNotIn("made another there", _said(run, run.report.findings[0]))

    def test_nothing_is_green_while_there_is_a_row(self) -> None:
        for name in (*_CAUSES, *(f"{name}_mended" for name in _DROPPING)):
            self.assertNotIn('class="verdict clean"', written_page(run_of_service(name)), name)

    def test_other_programs_get_the_same_rows_as_json(self) -> None:
        for name, cause in _CAUSES.items():
            run = run_of_service(name)
            told = json.loads(AsJson(run).text())
            first = told["report"][0]
            self.assertEqual((first["kind"], first["line"]), (cause.kind.value, (run.report.findings[0].row or 0) + 1))
            places = {f"{Path(place['file']).name}:{place['line']}" for place in first["places"]}
            self.assertLessEqual(set(cause.lines), places, name)
            self.assertEqual({place["file"].rpartition("/")[0] for place in first["places"]}, {"/srv/shop"})


class AsJsonTest(unittest.TestCase):
    """What other programs read."""

    def test_hostile_texts_are_escaped_and_read_back(self) -> None:
        run = samples.hostile()
        run.places = Places({f"d{number}": Place(f"/srv/{text[:20]}\udcff.py", 3) for number, text in enumerate(samples.HOSTILE)}, {})
        text = AsJson(run).text()
        self.assertTrue(text.isascii() and text.isprintable())
        told = json.loads(text)
        self.assertEqual(told["title"], run.title)
        self.assertEqual(told["made"][0]["deferreds"][0]["end"], run.fold.records[0].end)


class ByLine(unittest.TestCase):
    """The table of lines that made Deferreds."""

    def test_the_lost_answer_stands_out_among_those_of_its_line(self) -> None:
        run = run_of_service("warehouse")
        first = json.loads(AsJson(run).text())["made"][0]
        self.assertEqual((first["file"], first["line"], first["function"], first["made"]), ("/srv/shop/warehouse.py", 67, "order", 17))
        self.assertEqual(first["by"], {"file": "/srv/shop/wire.py", "line": 33, "function": "ask"})
        self.assertEqual(first["ended"], {"ok": 15, "cancelled": 1, "fail": 1})
        odd = [one for one in first["deferreds"] if one["number"] in first["odd"]]
        self.assertEqual(len(odd), 1)
        self.assertRegex(odd[0]["name"], r"^ask_33_\d+$")
        self.assertGreater(first["longest"]["seconds"], 50 * first["median"]["seconds"])
        self.assertEqual(odd[0]["unfired"], first["longest"])
        stack = [[f"{Path(one['file']).name}:{one['line']} {one['function']}" for one in part] for part in odd[0]["stack"]]
        self.assertEqual(stack, [["wire.py:33 ask", "warehouse.py:67 order"], ["warehouse.py:103 main"], ["warehouse.py:116 <lambda>"]])
        self.assertEqual(sum(line["made"] for line in json.loads(AsJson(run).text())["made"]), len(run.inferred.sites.of))

    def test_a_mended_service_has_no_odd_one(self) -> None:
        for name in _MENDED:
            self.assertEqual([site.odd for site in run_of_service(f"{name}_mended").inferred.sites.all if site.odd], [], name)

    def test_text_and_page_have_the_same_lines(self) -> None:
        run = run_of_service("ledger")
        lines = list(Terminal(run, False).report())
        table = lines[lines.index("") + 1 :]
        self.assertEqual(table[0].split("  ")[0], "made at")
        self.assertEqual(len(table) - 1, len(run.inferred.sites.all))
        self.assertRegex(table[1], r"^ledger\.py:109 step, by ask at wire\.py:33 +16 +13 ok, 1 fail, 2 unfired +[\d.]+ s +[\d.]+ s +#\d+ #\d+$")
        page = written_page(run)
        self.assertEqual(page.count("<summary class=site>"), len(run.inferred.sites.all))
        self.assertRegex(page, r"<bdi>step, by ask at wire.py:33</bdi></span><span>16</span><span>13 ok, 1 fail, 2 unfired</span><span>0.0\d+ s</span>")

    def test_the_outcomes_of_a_text_stand_below_their_lines(self) -> None:
        lines = list(Terminal(run_of_service("mailer"), False).lines())
        at = lines.index("made at mailer.py:35")
        self.assertTrue(lines[at + 1].startswith("#4 work_35 ok ") or lines[at + 1].startswith("#3 work_35 ok "), lines[at + 1])
        self.assertEqual(sum(line.startswith("#") for line in lines), 30)


class Words(unittest.TestCase):
    """What pages and texts of recorded programs say: nothing of a script, which their users didn't write, and times in seconds."""

    #: what must not be there, and what has to
    unwanted = (r"\bsides? (of|runs?|ran)\b|\d sides?\b", r"\bweight\b", r"action of the script|actions of the script", r"/events/\d", r"\bgiven back\b|is given\b", r"\d ticks?\b", r"\de\+0\d")

    def check(self, name: str, said: str) -> None:
        for pattern in self.unwanted:
            found = re.search(f".{{0,40}}(?:{pattern}).{{0,40}}", said)
            self.assertIsNone(found, f"{name}: {found and found[0]}")

    def test_none_of_them_is_on_a_page(self) -> None:
        for name in (*_CAUSES, *(f"{name}_mended" for name in _MENDED)):
            page = re.sub(r"(?s)<(script|style|pre)\b.*?</\1>", "", written_page(run_of_service(name)))
            self.check(name, html.unescape(re.sub(r"<[^>]*>", "\n", page)))

    def test_none_of_them_is_in_a_text_or_a_tree(self) -> None:
        for name in _CAUSES:
            run = run_of_service(name)
            terminal = Terminal(run, False)
            lines = [*terminal.lines(), *(line for number in list(run.fold.records)[::7] for line in terminal.tree(number))]
            self.check(name, "\n".join(lines))

    def test_times_are_seconds(self) -> None:
        run = run_of_service("warehouse")
        page, lines = written_page(run), list(Terminal(run, False).lines())
        self.assertRegex(lines[1], r"^\d+ lines, 151 Deferreds, \d+ events, 1\.\d+ s, a tick is 1 µs$")
        self.assertTrue(any(re.match(r" *\d+ +0\.0\d+ s advance \d+000 ", line) for line in lines))
        data = data_of(page)
        self.assertEqual(data["tick"], 0.000001)
        self.assertTrue(all(said == f"{ticks / 1_000_000:g} s" for ticks, said in data["axis"]["marks"]), data["axis"]["marks"])
        self.assertGreater(len(data["axis"]["marks"]), 2)


class FirstScreen(InBrowser):
    """What is seen of a page before anything is scrolled."""

    def test_the_cause_is_on_it(self) -> None:
        self.browser.resize(1280, _SCREEN)
        for name, cause in _CAUSES.items():
            with self.subTest(name):
                self.show(run_of_service(name))
                row = "document.querySelector('.report tr')"
                self.assertEqual(self.asked(f"{row}.cells[0].textContent"), cause.kind.value)
                self.assertLess(self.asked(f"{row}.getBoundingClientRect().bottom"), _SCREEN)
                said = self.asked(f"{row}.innerText")
                for place in cause.lines:
                    self.assertIn(place, said)

    def test_a_line_opens_to_its_deferreds(self) -> None:
        self.show(run_of_service("warehouse"))
        shown = "document.querySelector('#site-0 tr[data-d]')"
        self.assertTrue(self.asked(f"{shown} === null"))
        self.browser.click("#site-0 > summary")
        self.browser.settle()
        self.assertTrue(self.asked(f"{shown}.checkVisibility()"))
        self.assertEqual(self.asked("document.querySelectorAll('#site-0 tr[data-d]').length"), 17)


if __name__ == "__main__":
    unittest.main()
