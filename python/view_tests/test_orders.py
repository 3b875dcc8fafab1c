"""Every order of a script's posts as a page."""

from __future__ import annotations

import base64
import html
import json
import re
import tempfile
import unittest
import zlib
from pathlib import Path
from typing import Any, List, Optional, Tuple
from unittest import mock

from deferreds.checkout import TOP
from deferreds.bounds import MOST_ORDERS, MOST_SEED
from deferreds.view import inputs, orders_page, texts
from deferreds.view.batches import Batches, text_of
from deferreds.view.orders import Came, NotOrders, Orders, read_orders
from deferreds.view.orders_page import MOST_CHARTS, OrdersPage, share
from deferreds.view.run import Run

from . import samples
from .test_batches import view
from .test_browser import InBrowser
from .test_compared import lost, mended
from .test_page import _ATTRIBUTES, _ELEMENTS, Read, targets

_EXAMPLES = TOP / "examples"
_FULL_QUEUE, _CROSSED_LOCKS = _EXAMPLES / "full_queue.json", _EXAMPLES / "crossed_locks.json"

_ANN_FIRST, _BOB_SAVED = "[[[0,0],[0,1],[1,0],[1,1]]]", "[[[1,0],[1,1],[0,0],[0,1]]]"


def line(kind: str, sample: Optional[int] = None, **keys: Any) -> str:
    """A line of JSON of this type."""
    return json.dumps({**keys, "type": kind, "sample": sample}, ensure_ascii=False) + "\n"


def deferred(
    label: str, state: str, count: int, first: str, value: Any = None, waits_for: Any = None, paused: bool = False, sample: Optional[int] = None
) -> str:
    """A line of a Deferred by its NAME PLACE, in which a dash is no name."""
    name, place = label.split()
    named = {"name": None if name == "-" else name, "place": int(place)}
    keys = {"deferred": named, "state": state, "value": value, "waits_for": waits_for, "paused": paused}
    return line("deferred", sample, count=count, batches=json.loads(first), **keys)


def outcome(number: int, count: int, first: str, sample: Optional[int] = None) -> str:
    """A line of an outcome."""
    return line("outcome", sample, outcome=number, count=count, batches=json.loads(first))


def stopped(count: int, first: str, sample: Optional[int] = None) -> str:
    """The line of the orders that stopped."""
    return line("stopped", sample, count=count, batches=json.loads(first))


def unmet(count: int, first: str, sample: Optional[int] = None) -> str:
    """The line of the orders in which an `expect` was unmet."""
    return line("unmet", sample, count=count, batches=json.loads(first))


def printed_of(*lines: str, orders: int = 6, sample: Optional[int] = None, stops: int = 0, misses: int = 0) -> str:
    """What is printed with these lines, and with an outcome of its own for each first order where they have none."""
    told = [json.loads(one) for one in lines]
    firsts = dict.fromkeys(json.dumps(one["batches"]) for one in told)
    more = [outcome(number, 1, first, sample) for number, first in enumerate(firsts, 1)]
    if any(one["type"] == "outcome" for one in told):
        more = []
    outcomes = len(more) + sum(one["type"] == "outcome" for one in told)
    last = line("end", sample, orders=sample or orders, outcomes=outcomes, stopped=stops, unmet=misses)
    return "".join([line("orders", sample, orders=orders), *lines, *more, last])


_ANN = deferred("ann 1", "ok", 6, _ANN_FIRST, "resize")
_PRINTED = printed_of(
    _ANN,
    deferred("bob 1", "unfired", 1, _ANN_FIRST),
    deferred("bob 1", "ok", 5, "[[[0,0],[1,0],[0,1],[1,1]]]", "scan"),
    outcome(1, 1, _ANN_FIRST),
    outcome(2, 5, "[[[0,0],[1,0],[0,1],[1,1]]]"),
)
_SAMPLED = printed_of(
    deferred("ann 1", "ok", 4, _BOB_SAVED, "resize", sample=4),
    deferred("bob 1", "ok", 3, _BOB_SAVED, "scan", sample=4),
    deferred("bob 1", "unfired", 1, _ANN_FIRST, sample=4),
    outcome(1, 3, _BOB_SAVED, 4),
    outcome(2, 1, _ANN_FIRST, 4),
    sample=4,
)


def page_of(printed: str, *runs: Run) -> OrdersPage:
    """The page of what is printed, on which the first orders are these runs, again and again."""
    asked: List[Batches] = []

    def run(batches: Batches, label: str) -> Run:
        asked.append(batches)
        one = runs[(len(asked) - 1) % len(runs)]
        one.title = label
        return one

    return OrdersPage("t.json", read_orders(printed), run)


def many_ways(count: int) -> str:
    """What is printed of a Deferred that ends in so many ways, each first in another order."""
    return printed_of(*(deferred("d 1", "ok", 1, f"[[[0,{way}]]]", way) for way in range(count)), orders=count)


def rows(page: str, look: str = "ways") -> List[List[str]]:
    """The rows of the tables of endings, or of those of another look, by the texts of their cells."""
    tables = re.findall(f"<table class={look}>(.*?)</table>", page)
    found = [re.findall("<td[^>]*>(.*?)</td>", row) for table in tables for row in table.split("<tr")]
    return [[html.unescape(re.sub("<[^>]*>", "", cell)) for cell in row] for row in found if row]


#: the look of the table of outcomes
_OUTCOMES = '"ways outcomes"'


class OfText(unittest.TestCase):
    """What `./deferreds --json --orders` prints, read."""

    def test_the_ways_of_each_deferred(self) -> None:
        orders = read_orders(_PRINTED)
        self.assertEqual((orders.total, orders.ran, orders.is_sample, orders.stops, len(orders.outcomes)), (6, 6, False, None, 2))
        self.assertEqual(
            [(one.label, [(way.state, way.orders) for way in one.ways]) for one in orders.endings],
            [("ann 1", [('ok "resize"', 6)]), ("bob 1", [("unfired", 1), ('ok "scan"', 5)])],
        )
        self.assertEqual(list(map(text_of, orders.firsts)), [_ANN_FIRST, "[[[0,0],[1,0],[0,1],[1,1]]]"])
        self.assertEqual([orders.differs(one) for one in orders.endings], [False, True])

    def test_a_sample_has_the_number_of_all_orders_and_of_its_own(self) -> None:
        orders = read_orders(_SAMPLED)
        self.assertEqual((orders.total, orders.ran, orders.is_sample), (6, 4, True))
        self.assertEqual(orders.counts, "a sample of 4 of 6 orders, 2 outcomes")
        self.assertEqual([orders.unmade(one) for one in orders.endings], [0, 0])
        self.assertEqual([(came.orders, text_of(came.first)) for came in orders.outcomes], [(3, _BOB_SAVED), (1, _ANN_FIRST)])

    def test_orders_that_stopped_and_no_deferred(self) -> None:
        nothing = printed_of(outcome(1, 1, "[[]]"), orders=1)
        self.assertEqual(read_orders(nothing), Orders(1, 1, False, (), (Came(1, ((),)),)))
        text = printed_of(outcome(1, 2, "[[[0,0]]]"), stopped(2, "[[[0,0]]]"), orders=2, stops=2)
        self.assertEqual(read_orders(text).stops, Came(2, (((0, 0),),)))

    def test_one_that_isn_t_made_in_some_orders_differs(self) -> None:
        orders = read_orders(printed_of(deferred("- 1", "ok", 4, "[[]]")))
        self.assertEqual((orders.unmade(orders.endings[0]), orders.differs(orders.endings[0])), (2, True))

    def test_states_are_as_in_the_lines_of_a_run(self) -> None:
        failure = {"fail": "ValueError", "message": 'n"o'}
        first = {"fail": "FirstError", "index": 1, "message": "", "sub": failure}
        told = [
            (deferred("d 1", "ok", 1, "[[]]", ["\u00fc\u2028", 2, [False, failure]], paused=True), 'paused ok ["\u00fc\u2028",2,[false,{"fail":"ValueError","message":"n\\"o"}]]'),
            (deferred("d 1", "fail", 1, "[[]]", first), 'fail FirstError "" at 1 of ValueError "n\\"o"'),
            (deferred("d 1", "waiting", 1, "[[]]", waits_for={"name": None, "place": 3}), "waiting - 3"),
            (deferred("d 1", "waiting", 1, "[[]]", paused=True), "paused waiting -"),
            (deferred("d 1", "unfired", 1, "[[]]", paused=True), "paused unfired"),
        ]
        self.assertEqual([read_orders(printed_of(one)).endings[0].ways[0].state for one, _ in told], [state for _, state in told])

    def test_a_kind_that_isn_t_known_is_passed_over(self) -> None:
        self.assertEqual(read_orders(_PRINTED.replace(_ANN, _ANN + line("more"))), read_orders(_PRINTED))

    def test_first_orders_of_ways_and_of_the_stop_come_before_those_of_other_outcomes(self) -> None:
        first, second, third, last = ("[[[0,0]]]", "[[[0,1]]]", "[[[0,2]]]", "[[[0,3]]]")
        ways = [deferred("d 1", "ok", 2, first, 1), deferred("d 1", "unfired", 2, third)]
        outcomes = [outcome(number, 1, one) for number, one in enumerate((first, second, third, last), 1)]
        orders = read_orders(printed_of(*ways, *outcomes, stopped(1, last), orders=4, stops=1))
        self.assertEqual(list(map(text_of, orders.charted(3))), [first, third, last])
        self.assertEqual(list(map(text_of, orders.charted(9))), [first, second, third, last])

    def test_what_is_none(self) -> None:
        first, *counted, last = _PRINTED.splitlines(keepends=True)
        middle = "".join(counted)
        for text in ("", "\n", first, _PRINTED[:-1], middle + last, first + middle, first.replace("6", "7") + middle + last,
                     first + middle + last.replace("6", "5"), first + middle + last.replace(": 2", ": 3"), first.replace("null", "6") + middle + last[:-1],
                     first + middle + last.replace('stopped": 0', 'stopped": 1'), _PRINTED.replace('"place": 1', '"place": "1"'),
                     _PRINTED.replace("[1, 0]", "[1]"), _PRINTED.replace('"ok"', '"good"'), _PRINTED.replace('"bob"', "7"),
                     _PRINTED.replace('"count": 5', '"count": true'), "7\n7\n", "[]\n[]\n", "new #0 d\n#0 d unfired\n", "[" * 9999 + "\n"):  # fmt: skip
            with self.assertRaises(NotOrders, msg=text[:90]):
                read_orders(text)

    def test_shares(self) -> None:
        self.assertEqual([share(1, 6), share(6, 6), share(1, 20_000), share(19_999, 20_000), share(1, 2)], ["16.7%", "100%", "<0.1%", "99.9%", "50.0%"])


class OfPage(unittest.TestCase):
    """The page as a text."""

    def test_a_row_for_each_way_with_its_share_and_its_order(self) -> None:
        page = page_of(_PRINTED, lost(), mended()).html()
        self.assertEqual(
            rows(page),
            [
                ["bob 1 2 ways", "○ unfired", "1", "16.7%", "order A"],
                ["bob 1", '✓ ok "scan"', "5", "83.3%", "order B"],
                ["ann 1", '✓ ok "resize"', "6", "100%", "order A"],
            ],
        )
        self.assertIn("2 outcomes</span>", page)
        self.assertIn("Ends in more than one way: 1 Deferred<", page)
        self.assertEqual(page.count("<a href=#order-A>"), 3)

    def test_orders_in_which_one_isn_t_made_are_counted(self) -> None:
        page = page_of(printed_of(deferred("- 1", "ok", 4, "[[]]")), lost()).html()
        self.assertEqual(rows(page), [["- 1 2 ways", "✓ ok null", "4", "66.7%", "order A"], ["- 1", "isn't made", "2", "33.3%", ""]])

    def test_each_first_order_is_there_once(self) -> None:
        page = page_of(_PRINTED, lost(), mended()).html()
        self.assertEqual(re.findall("<section class=order id=(order-.)", page), ["order-A", "order-B"])
        self.assertEqual(page.count("srcdoc="), 2)
        self.assertIn("<code>--batches &#x27;[[[0,0],[1,0],[0,1],[1,1]]]&#x27;</code>", page)

    def test_no_more_charts_than_the_most_and_the_page_says_so(self) -> None:
        page = page_of(many_ways(MOST_CHARTS + 2), mended()).html()
        self.assertEqual(page.count("srcdoc="), MOST_CHARTS)
        self.assertIn(f"the charts of {MOST_CHARTS} of these {MOST_CHARTS + 2} first orders", page)
        self.assertEqual(rows(page)[-1], ["d 1", f"✓ ok {MOST_CHARTS + 1}", "1", "5.6%", f"[[[0,{MOST_CHARTS + 1}]]]"])
        with mock.patch.object(orders_page, "MOST_CHART_LINES", 25):
            self.assertEqual(page_of(many_ways(9), mended()).html().count("srcdoc="), 3)

    def test_each_pair_of_charts_is_compared(self) -> None:
        page = page_of(many_ways(3), lost(), mended(), samples.recorded()).html()
        blocks = re.findall('<pre class=block hidden data-o="(. .)">([^<]*)</pre>', page)
        self.assertEqual([names for names, _ in blocks], ["A B", "A C", "B C"])
        shown = zlib.decompress(base64.b64decode(blocks[0][1])).decode()
        self.assertIn("line 4 is the first that differs; 2 outcomes differ", shown)
        self.assertNotIn(" id=", shown)

    def test_one_order_and_one_outcome(self) -> None:
        for first, why in (("[[],[]]", "since no caller posts anything"), ("[[[0,0]]]", "one order in which the posts can be taken")):
            page = page_of(printed_of(deferred("d 1", "unfired", 1, first), orders=1), lost()).html()
            self.assertIn(why, page)
            self.assertIn("one outcome</span>", page)
            self.assertNotIn("Two orders beside each other", page)
        self.assertIn("No Deferred is made in any order", page_of(printed_of(outcome(1, 1, "[[]]"), orders=1), lost()).html())
        self.assertIn("No Deferred ends otherwise", page_of(printed_of(_ANN), lost()).html())

    def test_orders_that_stopped_are_said(self) -> None:
        printed = printed_of(outcome(1, 3, "[[[0,0]]]"), stopped(2, "[[[0,1]]]"), orders=3, stops=2)
        page = page_of(printed, lost(), mended()).html()
        self.assertIn("2 orders stopped at the limit of the journal</span>", page)
        self.assertIn("The first order that stopped at the limit of the journal.", page)
        self.assertEqual(rows(page, _OUTCOMES)[1], ["stopped at the limit of the journal", "2", "66.7%", "order B"])

    def test_orders_in_which_something_is_unmet_are_said(self) -> None:
        printed = printed_of(outcome(1, 3, "[[[0,0]]]"), unmet(2, "[[[0,1]]]"), orders=3, misses=2)
        page = page_of(printed, lost(), mended()).html()
        self.assertIn("2 orders unmet</span>", page)
        self.assertIn("The first order in which a Deferred isn't as the script expects.", page)
        self.assertEqual(rows(page, _OUTCOMES)[1], ["unmet", "2", "66.7%", "order B"])

    def test_each_outcome_opens_the_chart_of_its_first_order(self) -> None:
        page = page_of(_PRINTED, lost(), mended()).html()
        self.assertEqual(rows(page, _OUTCOMES), [["outcome 1", "1", "16.7%", "order A"], ["outcome 2", "5", "83.3%", "order B"]])
        self.assertIn("<tr data-o=B><td><a href=#order-B>outcome 2</a>", page)
        self.assertIn("The first order of outcome 2. The first order in which these end so: <b class=mono>bob 1</b>", page)

    def test_an_outcome_without_a_chart_has_its_batches(self) -> None:
        page = page_of(many_ways(MOST_CHARTS + 1), mended()).html()
        self.assertEqual(rows(page, _OUTCOMES)[-1], [f"outcome {MOST_CHARTS + 1}", "1", "5.9%", f"[[[0,{MOST_CHARTS}]]]"])
        with mock.patch.object(orders_page, "MOST_OUTCOMES", 5):
            page = page_of(many_ways(MOST_CHARTS), mended()).html()
        self.assertEqual(len(rows(page, _OUTCOMES)), 5)
        self.assertIn(f"and {MOST_CHARTS - 5} more", page)

    def test_a_sample_is_said_at_the_head_and_in_each_table(self) -> None:
        page = page_of(_SAMPLED, mended(), lost()).html()
        self.assertIn("<bdi>t.json</bdi>: a sample of 4 of 6 orders</h1>", page)
        self.assertIn("Orders that weren't drawn may end otherwise.", page)
        titles = re.findall("<h3>(.*?)</h3>|<h2 id=outcomes>(.*?)</h2>", page)
        self.assertEqual(
            ["".join(title) for title in titles],
            [
                "Ends in more than one way: 1 Deferred, in a sample of 4 orders",
                "Ends the same in every sampled order: 1 Deferred, in a sample of 4 orders",
                "2 outcomes, in a sample of 4 orders",
            ],
        )
        self.assertEqual(rows(page)[0], ["bob 1 2 ways", '✓ ok "scan"', "3", "75.0%", "order A"])
        self.assertIn("The first sampled order of outcome 1.", page)
        self.assertNotIn("a sample", page_of(_PRINTED, lost()).html())

    def test_hostile_texts_are_texts(self) -> None:
        lines = [deferred(f"d{place} 1", "ok", 6, f"[[[0,{place}]]]", text) for place, text in enumerate(samples.HOSTILE)]
        orders = read_orders(printed_of(*lines))
        hostile = samples.hostile()
        page = OrdersPage("".join(samples.HOSTILE[:8]), orders, lambda batches, label: hostile).html()
        read = Read(page)
        self.assertLessEqual(read.elements, _ELEMENTS | {"iframe", "h3", "th"})
        self.assertLessEqual(read.attributes, _ATTRIBUTES | {"srcdoc", "data-o", "height"})
        self.assertEqual(set(texts.unseen().findall(page)), {"\n"})
        self.assertTrue(all(re.fullmatch("#?(order-[A-Z]|[a-z]+)", name) for name in read.values["id"] | read.values["href"]))
        for text in read.values["srcdoc"]:
            inner = Read(text)
            self.assertLessEqual(inner.elements, _ELEMENTS | {"base"})
            self.assertLessEqual(inner.attributes, _ATTRIBUTES)
            self.assertLessEqual(inner.links - {"about:srcdoc"}, targets(text))

    def test_the_policy_allows_what_stands_on_the_page_and_in_its_frames_alone(self) -> None:
        read = Read(page_of(_PRINTED, lost(), mended()).html())
        self.assertTrue(read.policy.startswith("default-src 'none';"))
        self.assertNotIn("unsafe", read.policy)
        inner = [Read(text).policy for text in read.values["srcdoc"]]
        for policy in inner:
            self.assertLessEqual(set(re.findall("'sha256-[^']*'", policy)), set(re.findall("'sha256-[^']*'", read.policy)))
        self.assertEqual(len(inner), 2)


class OfCommand(unittest.TestCase):
    """`./view --orders`, with the program that the view runs."""

    def setUp(self) -> None:
        folder = tempfile.TemporaryDirectory()
        self.addCleanup(folder.cleanup)
        self.folder = Path(folder.name)

    def script(self, **parts: Any) -> Path:
        """A script."""
        path = self.folder / "s.json"
        path.write_text(json.dumps({"version": 1, **parts}), encoding="utf-8")
        return path

    def test_one_page_for_a_script(self) -> None:
        status, output, errors = view("--orders", _FULL_QUEUE, "-o", self.folder)
        target = self.folder / "full_queue.orders.html"
        self.assertEqual((status, output, errors), (0, "", f"view: {target}: 6 orders, 2 outcomes; 2 charts\n"))
        page = target.read_text(encoding="utf-8")
        self.assertEqual(rows(page)[0], ["bob 1 2 ways", "○ unfired", "1", "16.7%", "order A"])
        self.assertIn("full_queue.json, order B", page)

    def test_one_page_for_a_script_that_is_unmet_in_some_order(self) -> None:
        status, output, errors = view("--orders", _EXAMPLES / "answered_or_cancelled.json", "-o", self.folder)
        target = self.folder / "answered_or_cancelled.orders.html"
        self.assertEqual((status, output, errors), (0, "", f"view: {target}: 4 orders, 3 outcomes; 3 charts\n"))
        self.assertIn("3 orders unmet</span>", target.read_text(encoding="utf-8"))

    def test_on_standard_output_and_in_a_file_of_another_name(self) -> None:
        status, output, _ = view("--orders", "--most", 6, "-o", "-", _FULL_QUEUE)
        self.assertEqual((status, output[:15]), (0, "<!doctype html>"))
        self.assertEqual(view("--orders", _FULL_QUEUE, "-o", self.folder / "x.html")[0], 0)
        self.assertEqual((self.folder / "x.html").read_text(encoding="utf-8"), output)

    def test_a_name_that_ends_with_a_slash_is_a_folder(self) -> None:
        self.assertEqual(view("--orders", _FULL_QUEUE, "-o", f"{self.folder}/pages/")[0], 0)
        self.assertTrue((self.folder / "pages" / "full_queue.orders.html").is_file())

    def test_a_script_without_callers_has_one_order(self) -> None:
        _, output, _ = view("--orders", "-o", "-", _EXAMPLES / "retried.json")
        self.assertIn("There is one order, since no caller posts anything. So every run prints the same.", output)

    def test_too_many_orders_are_refused(self) -> None:
        for words in (["--most", 5, _FULL_QUEUE], [self.script(callers=[[{"do": []}] * 8] * 8, events=[])]):
            found = view("--orders", "-o", self.folder / "x.html", *words)
            self.assertEqual(found, (7, "", ""))  # (the program itself says so)
            self.assertFalse((self.folder / "x.html").exists())

    def test_a_sample(self) -> None:
        status, output, errors = view("--orders", "--sample", 4, "--seed", 1, _FULL_QUEUE, "-o", self.folder)
        target = self.folder / "full_queue.sample.html"
        self.assertEqual((status, output, errors), (0, "", f"view: {target}: a sample of 4 of 6 orders, 2 outcomes; 2 charts\n"))
        self.assertEqual(rows(target.read_text(encoding="utf-8"), _OUTCOMES)[0], ["outcome 1", "3", "75.0%", "order A"])

    def test_a_sample_of_more_orders_than_may_run(self) -> None:
        script = self.script(callers=[[{"do": []}] * 4] * 4, events=[])
        self.assertEqual(view("--orders", "--sample", 2, "--seed", 0, script, "-o", self.folder)[0], 0)
        self.assertIn("a sample of 2 of 63063000 orders", (self.folder / "s.sample.html").read_text(encoding="utf-8"))

    def test_a_script_that_is_refused(self) -> None:
        status, _, errors = view("--orders", self.script(events=[["deferred", 7]]), "-o", self.folder)
        self.assertEqual((status, errors.count("\n")), (2, 1))
        self.assertIn("s.json is refused: BadShape: at /events/0/1: found 7", errors)
        self.assertEqual(view("--orders", self.folder / "none.json")[0], 66)

    def test_words_that_do_not_go_together(self) -> None:
        for words in (
            ["--orders", "--text", _FULL_QUEUE],
            ["--orders", "--trace", _FULL_QUEUE],
            ["--orders", "--batches", "[[]]", _FULL_QUEUE],
            ["--orders", "--journal", _FULL_QUEUE],
            ["--orders", "--json", _FULL_QUEUE],
            ["--orders", "--compare", _FULL_QUEUE, _FULL_QUEUE],
            ["--orders", "--from", 2, _FULL_QUEUE],
            ["--orders", "--most", -1, _FULL_QUEUE],
            ["--orders", "--most", MOST_ORDERS + 1, _FULL_QUEUE],
            ["--most", 5, _FULL_QUEUE],
            ["--sample", 5, "--seed", 1, _FULL_QUEUE],
            ["--orders", "--sample", 5, _FULL_QUEUE],
            ["--orders", "--seed", 1, _FULL_QUEUE],
            ["--orders", "--most", 5, "--sample", 5, "--seed", 1, _FULL_QUEUE],
            ["--orders", "--sample", 0, "--seed", 1, _FULL_QUEUE],
            ["--orders", "--sample", MOST_ORDERS + 1, "--seed", 1, _FULL_QUEUE],
            ["--orders", "--sample", 5, "--seed", MOST_SEED + 1, _FULL_QUEUE],
        ):
            status, output, errors = view(*words)
            self.assertEqual((status, output, errors.count("\n")), (64, "", 1), words)

    def test_a_program_that_doesn_t_know_it_or_prints_something_else(self) -> None:
        stand_in = self.folder / "deferreds"
        for text, said in (("exit 64", "doesn't know --orders"), ("echo hello", "can't be read"), ("printf '\\377'", "isn't UTF-8")):
            stand_in.write_text(f"#!/bin/sh\n{text}\n")
            stand_in.chmod(0o755)
            with mock.patch.object(inputs, "found", lambda: stand_in):
                status, output, errors = view("--orders", _FULL_QUEUE, "-o", "-")
            self.assertEqual((status in (66, 70), output, errors.count("\n")), (True, "", 1))
            self.assertIn(said, errors)


_FRAME = "document.querySelector('#order-{}').querySelector('iframe')"


class Seen(InBrowser):
    """The page in a browser."""

    def open_page(self, script: Path = _CROSSED_LOCKS, fragment: str = "") -> None:
        """Opens the page of a script."""
        self.assertEqual(view("--orders", script, "-o", self.path)[0], 0)
        self.browser.open(self.path, fragment)

    def shown(self) -> List[str]:
        """The charts that are shown."""
        shown: List[str] = self.asked("[...document.querySelectorAll('section.order')].filter(one => one.getBoundingClientRect().height).map(one => one.dataset.o)")
        return shown

    def inside(self, letter: str, expression: str) -> Any:
        """What JavaScript says inside the chart of an order, where `d` is its document."""
        return self.asked(f"(d => {expression})({_FRAME.format(letter)}.contentDocument)")

    def waited(self, expression: str) -> Any:
        """What JavaScript says, once it says anything that holds."""
        return self.asked(
            f"new Promise(done => {{ const look = () => {{ const said = {expression}; if (said) done(said); else setTimeout(look, 10); }}; look(); }})"
        )

    def test_an_outcome_that_is_clicked_shows_its_order(self) -> None:
        self.open_page()
        self.assertEqual(self.shown(), ["A"])
        self.browser.click("tr[data-o=B] a")
        self.waited("location.hash === '#order-B'")
        self.browser.settle()
        self.assertEqual(self.shown(), ["B"])
        self.assertEqual(self.asked("[...document.querySelectorAll('tr.on')].map(row => row.querySelector('td').innerText)"), ["ann_safe 1", "bob_door 1", "outcome 2"])
        self.browser.click("tr[data-o=A] .count")
        self.waited("location.hash === '#order-A'")
        self.browser.settle()
        self.assertEqual(self.shown(), ["A"])
        self.assertEqual(self.trouble(), [])

    def test_enter_on_an_outcome_shows_its_order(self) -> None:
        self.open_page()
        self.asked("document.querySelector('tr[data-o=B] a').focus()")
        self.browser.press("Enter")
        self.waited("location.hash === '#order-B'")
        self.browser.settle()
        self.assertEqual(self.shown(), ["B"])
        self.assertLess(abs(self.asked("document.getElementById('order-B').getBoundingClientRect().top")), 120)

    def test_an_address_shows_an_order_or_two(self) -> None:
        self.open_page(fragment="#order-B")
        self.assertEqual(self.shown(), ["B"])
        self.browser.open(self.path, "#both-B-A")
        self.waited("document.querySelector('#pair[data-o]')")
        self.assertEqual(self.asked("[...document.querySelectorAll('select')].map(one => one.value)"), ["B", "A"])
        self.browser.open(self.path, "#order-Z")
        self.assertEqual(self.shown(), ["A"])

    def test_a_chart_has_the_lines_of_its_order_and_its_own_links_and_keys(self) -> None:
        self.open_page(fragment="#order-B")
        self.assertEqual(self.inside("B", "d.querySelector('#r7 .t').textContent"), "post 1 0")
        self.inside("B", "d.querySelector('.ends a[href^=\"#r\"]:not([data-f])').click()")
        self.waited(f"/^#r/.test({_FRAME.format('B')}.contentWindow.location.hash)")
        self.assertEqual(self.inside("B", "d.querySelectorAll('.row.here').length"), 1)
        self.inside("B", "d.querySelector('#chart [data-f]').click()")
        self.assertEqual(self.inside("B", "d.body.className"), "focus")
        self.inside("B", "d.querySelector('#focus a').click()")
        self.waited(f"!{_FRAME.format('B')}.contentDocument.getElementById('tree').hidden")
        self.inside("B", "d.dispatchEvent(new KeyboardEvent('keydown', {key: 'Escape'}))")
        self.assertTrue(self.inside("B", "d.getElementById('tree').hidden"))
        self.assertEqual(self.asked("location.hash"), "#order-B")
        self.assertEqual(self.trouble(), [])

    def test_two_orders_stand_beside_each_other(self) -> None:
        self.path.write_text(page_of(many_ways(3), lost(), mended(), samples.recorded()).html(), encoding="utf-8")
        self.browser.open(self.path)
        self.waited("document.querySelector('#pair[data-o]')")
        self.assertEqual(self.asked("document.querySelector('#pair .verdict').textContent"), "line 4 is the first that differs; 2 outcomes differ")
        self.choose(1, "C")
        self.waited("document.querySelector('#pair').dataset.o === 'A C'")
        self.choose(0, "B")
        self.waited("document.querySelector('#pair').dataset.o === 'B C'")
        tops = self.asked(
            "[...document.querySelectorAll('#pair tr')].map(row => [...row.querySelectorAll('td.line')].map(cell => Math.round(cell.getBoundingClientRect().top)))"
            ".filter(tops => tops.length === 2)"
        )
        self.assertGreater(len(tops), 3)
        self.assertTrue(all(len(set(pair)) == 1 for pair in tops))
        self.choose(1, "B")
        self.waited("document.querySelector('#pair').textContent === 'Choose two orders that differ.'")
        self.assertEqual(self.trouble(), [])

    def choose(self, place: int, letter: str) -> None:
        """Chooses an order in one of the two lists."""
        self.asked(
            f"(pick => {{ pick.value = {json.dumps(letter)}; pick.dispatchEvent(new Event('change')); }})(document.querySelectorAll('select')[{place}])"
        )

    def test_hostile_texts_do_nothing_and_are_shown(self) -> None:
        lines = [deferred(f"d{place} 1", "ok", 6, f"[[[0,{place % 2}]]]", text) for place, text in enumerate(samples.HOSTILE)]
        hostile = samples.hostile()
        page = OrdersPage("".join(samples.HOSTILE[:8]), read_orders(printed_of(*lines)), lambda batches, label: hostile)
        self.path.write_text(page.html(), encoding="utf-8")
        for width in (1360, 400):
            self.browser.resize(width, 1000)
            self.browser.open(self.path)
            self.waited("document.querySelector('#pair[data-o]')")
            self.assertEqual(self.trouble(), [])
            for place in ("window", f"{_FRAME.format('A')}.contentWindow", f"{_FRAME.format('B')}.contentWindow"):
                self.assertIsNone(self.asked(f"{place}.harm"))
                for selector in ("img", "b[onmouseover]", "svg[onload]", "[onclick]", "main script"):
                    self.assertTrue(self.asked(f"{place}.document.querySelector({json.dumps(selector)}) === null"), selector)
            self.assertLessEqual(self.asked("document.scrollingElement.scrollWidth"), width)
        self.assertIn(samples.HOSTILE[0], self.asked("document.querySelector('.ways td a').textContent"))

    def test_it_opens_fast_with_all_its_charts(self) -> None:
        self.path.write_text(page_of(many_ways(MOST_CHARTS), samples.recorded()).html(), encoding="utf-8")
        self.assertLess(self.browser.open(self.path), 10)
        self.assertEqual(self.shown(), ["A"])
        self.assertLess(self.path.stat().st_size, 5_000_000)

    def test_without_scripts_the_charts_stand_one_below_the_other(self) -> None:
        self.browser.scripts(False)
        self.open_page()
        self.assertEqual(self.shown(), ["A", "B"])
        tops: Tuple[float, ...] = tuple(self.asked("[...document.querySelectorAll('iframe')].map(one => one.getBoundingClientRect().top)"))
        self.assertLess(tops[0] + 200, tops[1])
        lines = [self.inside(letter, "d.querySelector('noscript pre').textContent").split("\n") for letter in "AB"]
        self.assertEqual([each[6] for each in lines], ["post 0 1", "post 1 0"])
        self.assertEqual(self.asked("document.querySelectorAll('select').length"), 0)
        self.assertEqual(self.trouble(), [])


if __name__ == "__main__":
    unittest.main()
