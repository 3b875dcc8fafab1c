"""How long Deferreds were what: in the outcomes, and on an axis in proportion to time."""

from __future__ import annotations

import unittest
from typing import List, Tuple

from deferreds.view.axis import MOST, Axis
from deferreds.view.run import Run, run_of_journal
from deferreds.view.units import in_seconds, seconds_of

from . import samples
from .test_browser import InBrowser

_TAKES = [
    "new #0 d", "new #1 e", "advance 30", "fire #0 ok 1", "run #0", "wait #0 #1", "advance 80", "pause #1", "advance 100", "unpause #1",
    "advance 200", "fire #1 ok 2", "hand #1 #0 ok 2", "run #0", "set #0 ok 3",
]  # fmt: skip


def of(lines: List[str]) -> Run:
    """The run of a journal."""
    return run_of_journal("".join(f"{line}\n" for line in lines), "t")


class Spent(unittest.TestCase):
    """How long each Deferred was what."""

    def test_up_to_each_change(self) -> None:
        run = of(_TAKES)
        self.assertEqual([tuple(run.durations.of(one)) for one in run.fold.records.values()], [(30, 170, 0, 2), (200, 0, 20, 0)])

    def test_what_is_left_counts_to_the_end(self) -> None:
        run = of(["new #0 d", "advance 5", "new #1 e", "advance 9"])
        self.assertEqual([run.durations.of(one).unfired for one in run.fold.records.values()], [9, 4])

    def test_seconds(self) -> None:
        said = [in_seconds(count, tick) for count, tick in ((1, ""), (1, "1 ms"), (0, "1 ms"), (1, "1 µs"), (12345, "1 s"), (1, "1/3 s"), (10**15, "1 ns"))]
        self.assertEqual(said, ["", "0.001 s", "0 s", "0.001 ms", "12345 s", "0.3333 s", "1000000 s"])
        self.assertEqual([seconds_of(1, tick) for tick in ("", "1/4 s", "2 ms")], [0, 0.25, 0.002])


class AxisTest(unittest.TestCase):
    """What stands on the axis."""

    def test_marks_are_few_and_round(self) -> None:
        for end, step in ((1, 1), (7, 1), (9, 2), (200, 50), (12_345, 2_000), (10**15, 2 * 10**14)):
            form = Axis(of(["new #0 d", f"advance {end}"])).form
            assert form is not None
            self.assertEqual(form["marks"], [(time, f"{time}") for time in range(0, end + 1, step)])

    def test_marks_of_a_recorded_run_are_seconds(self) -> None:
        run = of(["new #0 d", "advance 2000"])
        run.tick = "1 ms"
        form = Axis(run).form
        assert form is not None
        self.assertEqual(form["marks"], [(0, "0 s"), (500, "0.5 s"), (1000, "1 s"), (1500, "1.5 s"), (2000, "2 s")])

    def test_there_is_none_where_no_time_goes_on(self) -> None:
        for lines in (["new #0 d", "fire #0 ok 1"], ["advance 5"]):
            self.assertIsNone(Axis(of(lines)).form)
            self.assertEqual(list(Axis(of(lines)).pieces()), [])

    def test_of_many_those_that_took_longest(self) -> None:
        lines = [f"new #{number} d" for number in range(2 * MOST)] + ["advance 1"]
        lines += [f"fire #{number} ok 1" for number in range(0, 2 * MOST, 2)] + ["advance 2"]
        axis = Axis(of(lines))
        self.assertIn(f"the {MOST} of {2 * MOST} Deferreds that were unfired or waited longest", "".join(axis.pieces()))
        self.assertEqual(axis.numbers, list(range(1, 2 * MOST, 2)))


class InTheBrowser(InBrowser):
    """The axis as it is drawn."""

    def test_the_outcomes_say_it_with_seconds(self) -> None:
        run = of(_TAKES)
        for tick, said in (("", "unfired 30 ticks, waited 170 ticks, 2 callbacks"), ("1/4 s", "unfired 7.5 s, waited 42.5 s, 2 callbacks")):
            run.tick = tick
            self.show(run)
            self.assertEqual(self.asked("document.querySelector('.ends tr[data-d=\"0\"] .why').textContent"), said)

    def bars(self, number: int) -> List[Tuple[str, str, str]]:
        """The bars of a Deferred: class, beginning and end."""
        bars = f"[...document.querySelectorAll('#time tr[data-d=\"{number}\"] line')]"
        return [tuple(one) for one in self.asked(f"{bars}.map(line => ['class', 'x1', 'x2'].map(name => line.getAttribute(name)))")]

    def test_in_proportion_to_time(self) -> None:
        self.show(of(_TAKES))
        self.browser.click("#time summary")
        self.browser.settle()
        self.assertEqual(self.bars(0), [("u", "0%", "15%"), ("wait", "15%", "100%"), ("tick", "0%", "0%")])
        rails = ("rails", "40%", "50%")
        self.assertEqual(self.bars(1), [("u", "0%", "40%"), ("u thin", "40%", "50%"), rails, rails, ("u", "50%", "100%"), ("tick", "0%", "0%")])

    def test_lengths_and_the_lines_of_a_tree(self) -> None:
        self.show(of(_TAKES))
        self.browser.click("#time summary")
        self.browser.settle()
        lengths = self.asked("[...document.querySelectorAll('#time tr[data-d=\"0\"] line')].map(line => line.getBoundingClientRect().width)")
        self.assertAlmostEqual(lengths[1] / lengths[0], 85 / 15, delta=0.05)
        self.assertEqual(self.trouble(), [])
        self.show(samples.recorded(), "#d=6")
        self.browser.click("#time summary")
        self.browser.settle()
        shown = self.asked("[...document.querySelectorAll('#time tr[data-d]')].filter(row => !row.hidden).map(row => Number(row.dataset.d))")
        run = samples.recorded()
        told = {6, *(one.step.other for one in run.stories.tree(6) if one.opens)}
        self.assertEqual(set(shown), told)
        self.browser.press("Escape")
        self.assertEqual(self.asked("document.querySelectorAll('#time tr[hidden]').length"), 0)

    def test_it_fits_a_narrow_screen(self) -> None:
        self.browser.resize(400, 900)
        for run in (of(_TAKES), samples.recorded(), samples.hostile(), samples.long(300)):
            run.tick = "1/1234567 s"
            self.show(run)
            self.asked("(() => { const time = document.getElementById('time'); if (time) time.open = true; })()")
            self.browser.settle()
            wide = self.asked(
                "[...document.querySelectorAll('#time, #time tr, #time td, .ends td')].filter(part => part.getBoundingClientRect().right > innerWidth + 0.5).length"
            )
            self.assertEqual(wide, 0)


if __name__ == "__main__":
    unittest.main()
