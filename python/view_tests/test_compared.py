"""Two runs beside each other."""

from __future__ import annotations

import json
import re
import unittest
from typing import List, Optional, Tuple

from deferreds.view import texts
from deferreds.view.compared import Aligned, Compared
from deferreds.view.compared_lines import masked
from deferreds.view.compared_forms import MOST_LINES, MOST_OUTCOMES, ComparedPage, shortened_runs, text_lines
from deferreds.view.places import Place, Places
from deferreds.view.run import Run, run_of_journal
from deferreds.view.scripts import Script

from . import samples
from .test_browser import InBrowser
from .test_page import _ATTRIBUTES, _ELEMENTS, Read
from .test_services import places_of_service, run_of_service

_LINES = ["new #0 a", "new #1 b", "advance 3"]


def run_of(*lines: str, title: str = "t") -> Run:
    """The run of a journal with its outcomes."""
    return run_of_journal("".join(f"{line}\n" for line in lines), title)


def lost() -> Run:
    """A run in which an answer is lost, since another Deferred is made and cancelled first."""
    return run_of(
        *_LINES, "new #2 -", "cancel #2", 'fire #2 fail CancelledError ""', "new #3 c", "fire #3 ok 1", "run #3", "wait #3 #0",
        "#0 a unfired", "#1 b unfired", '#2 - fail CancelledError ""', "#3 c waiting #0", title="lost",
    )  # fmt: skip


def mended() -> Run:
    """The same where the answer comes."""
    return run_of(
        *_LINES, "new #2 c", "fire #2 ok 1", "run #2", "wait #2 #0", "fire #1 ok 5",
        "#0 a unfired", "#1 b ok 5", "#2 c waiting #0", title="mended",
    )  # fmt: skip


def recorded(*lines: str, script: Optional[object] = None) -> Run:
    """The same run as a recording: with a tick, and with what begins each event, which is a line here."""
    text = "".join(f"{line}\n" for line in lines)
    begins = range(sum(not line.startswith("#") for line in lines))
    run = run_of_journal(text, "t", Script(script), begins=begins)
    run.tick = "1 ms"
    return run


def differing(compared: Compared) -> List[Tuple[str, Optional[str], Optional[str]]]:
    """The outcomes that differ."""
    return [
        (one.name, one.first.end if one.first else None, one.second.end if one.second else None) for one in compared.outcomes
    ]


class Model(unittest.TestCase):
    """What is the same, and what differs."""

    def test_up_to_the_first_line_that_differs(self) -> None:
        compared = Compared(lost(), mended())
        self.assertEqual(compared.common, (3, 3))
        self.assertEqual(
            differing(compared), [("b", "unfired", "ok 5"), ("", 'fail CancelledError ""', None)]
        )
        self.assertEqual(compared.verdict, "line 4 is the first that differs; 2 outcomes differ")

    def test_one_that_waits_for_the_same_under_another_number_doesn_t_differ(self) -> None:
        first = run_of("new #0 -", "new #1 a", "new #2 b", "fire #2 ok 1", "run #2", "wait #2 #1", "#0 - unfired", "#1 a unfired", "#2 b waiting #1")
        second = run_of("new #0 a", "new #1 b", "fire #1 ok 1", "run #1", "wait #1 #0", "#0 a unfired", "#1 b waiting #0")
        self.assertEqual(differing(Compared(first, second)), [("", "unfired", None)])

    def test_the_same(self) -> None:
        compared = Compared(lost(), lost())
        self.assertTrue(compared.is_same)
        self.assertEqual(compared.verdict, "the same: 10 lines, and all outcomes")

    def test_a_run_that_goes_on_where_the_other_ends(self) -> None:
        compared = Compared(run_of(*_LINES, "#0 a unfired", "#1 b unfired"), run_of(*_LINES, 'note "x"', "#0 a unfired", "#1 b unfired"))
        self.assertEqual((compared.common, compared.verdict), ((3, 3), "line 4 is the first that differs; no outcome differs"))


class OfRecordings(unittest.TestCase):
    """Two recordings: times, and lines of the program in names, are different each time."""

    def test_neither_times_nor_lines_of_the_program_differ(self) -> None:
        first = recorded(
            "lock lock_get_7", "new #0 get_7", "acquire lock_get_7 #0", 'fire #0 ok "lock_get_7"', "later call call_get_9 5",
            "reset call_get_9 7", "advance 7", "new #1 get_7_2", '#0 get_7 ok "lock_get_7"', "#1 get_7_2 unfired",
        )  # fmt: skip
        second = recorded(
            "lock lock_get_12", "new #0 get_12", "acquire lock_get_12 #0", 'fire #0 ok "lock_get_12"', "later call call_get_14 6",
            "reset call_get_14 8", "advance 4", "advance 8", "new #1 get_12_2", '#0 get_12 ok "lock_get_12"', "#1 get_12_2 unfired",
        )  # fmt: skip
        compared = Compared(first, second)
        self.assertTrue(compared.is_same)
        self.assertEqual(compared.common, (8, 9))
        second.tick = ""
        compared = Compared(first, second)
        self.assertEqual((compared.common, compared.apart), ((0, 0), ""), "what isn't recorded is compared as it stands")
        self.assertEqual(len(compared.outcomes), 4)

    def test_all_else_differs(self) -> None:
        lines = ["new #0 get_7", "fire #0 ok 1", "later call call_get_9 5", "#0 get_7 ok 1"]
        for place, other in (
            (0, "new #0 put_7"),
            (1, "fire #0 ok 2"),
            (1, 'fire #0 ok "get_7"'),
            (2, "later call call_put_9 5"),
            (2, "semaphore lock_get_9 5"),
        ):
            compared = Compared(recorded(*lines), recorded(*lines[:place], other, *lines[place + 1 :]))
            self.assertEqual(compared.common, (place, place), other)

    def test_the_first_lines_that_differ_stand_beside_each_other(self) -> None:
        first = recorded("new #0 get_7", "advance 3", "fire #0 ok 1", "#0 get_7 ok 1")
        second = recorded("new #0 get_8", "advance 2", "advance 3", "fire #0 ok 2", "#0 get_8 ok 2")
        compared = Compared(first, second)
        self.assertEqual(compared.common, (2, 3))
        self.assertEqual(differing(compared), [("get_7 / get_8", "ok 1", "ok 2")])
        self.assertEqual(
            list(text_lines(compared))[2:],
            [
                "line 3 of the first and line 4 of the second are the first that differ; 1 outcome differs",
                "Both were recorded, so times, addresses, ports, numbers of objects and the program's line numbers in names aren't compared.",
                "- get_7 / get_8: #0 ok 1",
                "+ get_7 / get_8: #0 ok 2",
                "",
                "      1 new #0 get_7",
                "      2 advance 3",
                "-     3 fire #0 ok 1",
                "+     4 fire #0 ok 2",
            ],
        )

    def test_a_firing_without_effect_says_what_nobody_got(self) -> None:
        lines = ["new #0 d_1", "cancel #0", 'fire #0 fail CancelledError ""', "swallow #0", '#0 d_1 fail CancelledError ""']
        script = {"events": [["deferred", "d_1"], ["cancel", "d_1"], [], ["callback", "d_1", "<b>late</b>"]]}
        compared = Compared(recorded(*lines[:3], *lines[4:]), recorded(*lines, script=script))
        self.assertEqual(list(text_lines(compared))[-1], '+     4 swallow #0  "<b>late</b>"')
        self.assertIn("<span class=why><bdi>&quot;&lt;b&gt;late&lt;/b&gt;&quot;</bdi></span>", ComparedPage(compared).html())


class Forms(unittest.TestCase):
    """The page and the text."""

    def test_the_text(self) -> None:
        self.assertEqual(
            list(text_lines(Compared(lost(), mended()))),
            [
                "- lost: 10 lines, 4 Deferreds, time 0 to 3; 1 to look at; 2 left at the end",
                "+ mended: 8 lines, 3 Deferreds, time 0 to 3; 1 left at the end",
                "line 4 is the first that differs; 2 outcomes differ",
                "- b: #1 unfired",
                "+ b: #1 ok 5",
                '- -: #2 fail CancelledError ""',
                "+ -: isn't made",
                "",
                "      1 new #0 a",
                "      2 new #1 b",
                "      3 advance 3",
                "-     4 new #2 -",
                "-     5 cancel #2",
                '-     6 fire #2 fail CancelledError ""',
                "-     7 new #3 c",
                "-     8 fire #3 ok 1",
                "-     9 run #3",
                "-    10 wait #3 #0",
                "+     4 new #2 c",
                "+     5 fire #2 ok 1",
                "+     6 run #2",
                "+     7 wait #2 #0",
                "+     8 fire #1 ok 5",
            ],
        )

    def test_hostile_texts_are_texts(self) -> None:
        hostile = samples.hostile()
        for other in (lost(), samples.recorded()):
            for compared in (Compared(hostile, other), Compared(other, hostile)):
                page = ComparedPage(compared).html()
                read = Read(page)
                self.assertLessEqual(read.elements, (_ELEMENTS | {"th", "i"}) - {"script"})
                self.assertLessEqual(read.attributes, _ATTRIBUTES | {"colspan"})
                self.assertEqual((read.links, read.ids), (set(), []))
                self.assertEqual(set(texts.unseen().findall(page)), {"\n"})
                self.assertNotIn("script-src", read.policy)
                self.assertFalse(texts.unseen().search("".join(text_lines(compared))))

    def test_long_runs_are_shown_in_part(self) -> None:
        long, short = samples.long(12_000), run_of("note 1")
        page = ComparedPage(Compared(long, short)).html()
        self.assertIn(f"has {len(long.fold.rows) - MOST_LINES} more lines", page)
        self.assertIn(f"and {len(long.fold.records) - MOST_OUTCOMES} more<", page)
        self.assertLess(len(page.encode()), 1_000_000)


class Seen(InBrowser):
    """The page in a browser."""

    def test_hostile_texts_do_nothing_and_are_shown(self) -> None:
        for width in (1360, 400):
            self.browser.resize(width, 1000)
            self.path.write_text(ComparedPage(Compared(samples.hostile(), lost())).html(), encoding="utf-8")
            self.browser.open(self.path)
            self.assertEqual(self.trouble(), [])
            self.assertIsNone(self.asked("window.harm"))
            for selector in ("script", "img", "iframe", "b[onmouseover]", "svg[onload]", "[onclick]", "a"):
                self.assertTrue(self.asked(f"document.querySelector({json.dumps(selector)}) === null"), selector)
            shown = self.asked("document.querySelector('td.line').innerText")
            self.assertEqual(shown.strip(), "1new #0 d0")
            self.assertLessEqual(self.asked("document.scrollingElement.scrollWidth"), width)

    def test_both_stand_beside_each_other(self) -> None:
        self.path.write_text(ComparedPage(Compared(lost(), mended())).html(), encoding="utf-8")
        self.browser.open(self.path)
        tops = self.asked(
            "[...document.querySelectorAll('tr')].map(row => [...row.querySelectorAll('td.line')].map(cell => Math.round(cell.getBoundingClientRect().top)))"
            ".filter(tops => tops.length === 2)"
        )
        self.assertEqual(len(tops), 5)
        self.assertTrue(all(len(set(pair)) == 1 for pair in tops))


class ByLine(unittest.TestCase):
    """Two recordings, by the lines of their programs."""

    def both(self, name: str) -> Compared:
        return Compared(run_of_service(name), run_of_service(f"{name}_mended"))

    def test_the_cause_stands_at_the_top(self) -> None:
        for name, said in (("ledger", r"- held: transfer\(source='dan', target='bob', amount=9\) \(#\d+·transfer_48_5\) took a token"), ("warehouse", r"- odd: #\d+·ask_33_\d+ was unfired"), ("payments", "- swallowed: ")):
            lines = list(text_lines(self.both(name)))
            self.assertRegex(lines[4], said)
            page = ComparedPage(self.both(name)).html()
            self.assertLess(page.index("What the reports say"), page.index("Lines of the program whose Deferreds ended otherwise"))

    def test_then_the_lines_whose_deferreds_ended_otherwise_those_with_odd_ones_first(self) -> None:
        first = self.both("warehouse").sites[0]
        assert first.first is not None and first.second is not None
        self.assertEqual((first.function, first.first.said, first.second.said), ("order, by ask", "15 ok, 1 cancelled, 1 fail", "16 ok, 1 fail"))
        lines = list(text_lines(self.both("warehouse")))
        self.assertTrue(any(re.match(r"- order, by ask: warehouse.py:67: 15 ok, 1 cancelled, 1 fail, longest 1.\d+ s, odd: #\d+$", line) for line in lines))

    def test_a_recording_of_an_earlier_version_is_compared_by_the_lines_alone_that_made_them(self) -> None:
        earlier, mended = run_of_service("warehouse"), run_of_service("warehouse_mended")
        earlier.places = places_of_service("warehouse", "stacks")
        first = Compared(earlier, mended).sites[0]
        assert first.first is not None and first.second is not None
        self.assertEqual((first.function, first.first.said, first.second.said), ("ask", "41 ok, 1 cancelled, 1 fail", "43 ok, 1 fail"))
        self.assertEqual(len(first.first.odd), 1)

    def test_answers_in_another_order_don_t_differ_if_they_are_many(self) -> None:
        found = [one.name for one in self.both("warehouse").outcomes]
        self.assertEqual(found, ["order_103_7", "do_book_46_10", "ask_33_44"])

    def test_each_outcome_of_the_ledger_that_differs_is_a_consequence(self) -> None:
        for one in self.both("ledger").outcomes:
            self.assertTrue(one.first is None or one.first.end == "unfired", one.name)

    def test_lines_stand_beside_each_other_again_after_a_difference(self) -> None:
        def run(*more: str) -> Run:
            lines = ["new #0 get_7", "note 1", *more, "note 2", "add #0", "note 3"]
            return recorded(*lines, "#0 get_7 unfired")

        compared = Compared(run(), run('note "extra"', "lock l"))
        pairs = [(one.first and one.first.entry.line, one.second and one.second.entry.line, one.is_same) for one in compared.aligned(100)]
        same = [(line, line, True) for line in ("note 2", "add #0", "note 3")]
        self.assertEqual(pairs, [(None, 'note "extra"', False), (None, "lock l", False), *same])
        lines = list(text_lines(compared))
        self.assertEqual([line[0] for line in lines[lines.index("") + 3 :]], ["+", "+", " ", " ", " "])

    def test_lines_align_also_if_other_deferreds_were_made_between(self) -> None:
        compared = self.both("ledger")
        pairs = compared.aligned(10_000)
        same = [one for one in pairs if one.is_same and one.first and one.second and one.first.entry.deferred != one.second.entry.deferred]
        self.assertGreater(len(same), 100)
        for one in same:
            assert one.first is not None and one.second is not None
            self.assertEqual(one.first.entry.word, one.second.entry.word)

    def test_of_a_long_run_of_the_same_lines_the_midst_is_left_out(self) -> None:
        row = recorded("new #0 d", "#0 d unfired").fold.rows[0]
        same, other = Aligned(row, row, True), Aligned(row, None, False)
        self.assertEqual(shortened_runs([other, *[same] * 20, other]), [other, same, same, same, 14, same, same, same, other])
        self.assertEqual(shortened_runs([same] * 7), [same] * 7)

    def test_lines_are_known_by_their_functions(self) -> None:
        def run(line: int, *ends: str) -> Run:
            made = [row for number, end in enumerate(ends) for row in (f"new #{number} get_{line}_{number}", f"fire #{number} {end}")]
            found = recorded(*made, *(f"#{number} get_{line}_{number} {end}" for number, end in enumerate(ends)))
            found.places = Places({f"get_{line}_{number}": Place("/srv/a.py", line) for number in range(len(ends))}, {})
            return found

        same = Compared(run(3, "ok 1", "ok 2"), run(9, "ok 2", "ok 1"))
        self.assertEqual((same.sites, same.outcomes), ([], []))
        other = Compared(run(3, "ok 1", "ok 2"), run(9, "ok 1", 'fail ValueError ""'))
        self.assertEqual([(one.function, one.first and one.first.said, one.second and one.second.said) for one in other.sites], [("get", "2 ok", "1 ok, 1 fail")])
        self.assertEqual(differing(other), [("get_3_1 / get_9_1", "ok 2", 'fail ValueError ""')])

    def test_what_is_another_one_in_each_run_isn_t_compared(self) -> None:
        for one, other in (
            ('ok "127.0.0.1:40213"', 'ok "127.0.0.1:51844"'),
            ('ok "port 40213"', 'ok "port 51844"'),
            ('ok "<Client 3>"', 'ok "<Client 12>"'),
            ('ok "at 0x7f3a12bc"', 'ok "at 0x55aa00ff"'),
            ('ok "2026-12-01T03:30:46+0000 up"', 'ok "2026-12-02 11:02:03,5 up"'),
            ('ok "loop_begin_97"', 'ok "loop_begin_98_2"'),
        ):
            self.assertEqual(masked(one), masked(other))
        for text in ('ok 40213', 'ok "card-6 312"', 'ok "order 7: 2 lines"', 'fail ValueError "dan has 5, not 9"', 'ok "1.2.3"', 'ok "loop"'):
            self.assertEqual(masked(text), text)


if __name__ == "__main__":
    unittest.main()
