"""Which rows are one row that opens."""

from __future__ import annotations

import time
import unittest
from typing import List, Tuple

from deferreds.view.folding import Folded, Folding, same_lines
from deferreds.view.run import Run, run_of_journal

from . import samples

_POLL = ["advance {}", "turn poll", "new #{} status_7_{}", "fire #{} ok null", "later loop poll {}"]


def of(lines: List[str]) -> Run:
    """The run of a journal."""
    return run_of_journal("".join(f"{line}\n" for line in lines), "t")


def polling(turns: int, *more: str) -> List[str]:
    """A loop that takes so many turns, each with these lines at its end."""
    lines = ["new #0 d", "loop poll #0"]
    for turn in range(1, turns + 1):
        lines += [f"advance {5 * turn}", "turn poll", f"new #{turn} status_7_{turn}", f"fire #{turn} ok null", *more, f"later loop poll {5 * turn + 5}"]
    return lines


def found(run: Run) -> List[Folded]:
    """The folds of a run."""
    rows, every = run.fold.rows, range(len(run.fold.rows))
    return list(Folding(rows, every, same_lines(rows, every)).folds())


def folds(run: Run) -> List[Tuple[int, str]]:
    """The lines that stay, from 1, with the kind of the fold, how often turns come, and how many rows after or before are hidden."""
    return [(one.row + 1, f"{one.kind}{f'{one.times}.' if one.times else ''}{_hides(one)}") for one in sorted(found(run), key=lambda one: one.row)]


def _hides(one: Folded) -> int:
    return one.last - one.row if one.last > one.row else one.first - one.row


class Pairs(unittest.TestCase):
    """What adds pairs is one row."""

    def test_a_time_out(self) -> None:
        self.assertEqual(folds(of(["new #0 d", "later timeout #0 5", "add #0", "add #0", "add #0"])), [(2, "p2")])

    def test_a_list_and_a_gathering(self) -> None:
        made = ["new #0 a", "new #1 b", "new #2 both", "add #0", "add #1"]
        self.assertEqual(folds(of([*made, 'note ""', "add #2"])), [(3, "p2")])
        self.assertEqual(folds(of([*made, "add #2", "add #2"])), [(3, "p3")])

    def test_what_asks_for_a_token(self) -> None:
        self.assertEqual(folds(of(["lock l", "new #0 d", "acquire l #0", 'fire #0 ok "l"', "add #0", "run #0", 'note ""', "set #0 ok 1"])), [(2, "p3")])
        self.assertEqual(folds(of(["lock l", "new #0 d", "acquire l #0", "add #0"])), [(2, "p2")])

    def test_an_inline_body_that_awaits(self) -> None:
        self.assertEqual(folds(of(["new #0 d", "new #1 e", "await #0 #1", "add #1"])), [(3, "p1")])

    def test_pairs_of_the_program_stay(self) -> None:
        self.assertEqual(folds(of(["new #0 d", "add #0", "add #0", "new #1 e", 'note ""', "add #0"])), [])


class Sides(unittest.TestCase):
    """Sides that do nothing are one row, which shows their result."""

    def test_sides_without_effect(self) -> None:
        lines = ["new #0 d", "fire #0 ok 1", "run #0", "set #0 ok 1", "run #0", "set #0 ok 1", "run #0", "set #0 ok 2"]
        self.assertEqual(folds(of(lines)), [(6, "w-3"), (8, "w-1")])

    def test_a_side_that_does_something_stays(self) -> None:
        self.assertEqual(folds(of(["new #0 d", "fire #0 ok 1", "run #0", 'note ""', "set #0 ok 1"])), [])
        self.assertEqual(folds(of(["new #0 d", "fire #0 ok 1", "run #0", "release l", "fire #0 ok 1", "set #0 ok 1"])), [])

    def test_a_token_given_back_and_a_turn_scheduled(self) -> None:
        self.assertEqual(folds(of(["new #0 d", "lock l", "fire #0 ok 1", "run #0", "release l", "set #0 ok 1"])), [(6, "k-2")])
        self.assertEqual(folds(of(["new #0 d", "fire #0 ok 1", "run #0", "later loop p 9", "set #0 ok 1"])), [(5, "l-2")])


class Turns(unittest.TestCase):
    """Equal turns are one row."""

    def test_equal_but_for_numbers_and_times(self) -> None:
        self.assertEqual(folds(of(polling(40))), [(4, f"s40.{40 * 5 - 2}")])

    def test_another_turn_stays(self) -> None:
        lines = [*polling(5), *(line.replace("ok null", 'fail E ""') for line in polling(9)[-5:])]
        self.assertEqual(folds(of(lines)), [(4, f"s5.{5 * 5 - 2}")])

    def test_two_are_too_few(self) -> None:
        self.assertEqual(folds(of(polling(2))), [])

    def test_other_texts_are_no_equal_turns(self) -> None:
        lines = [line for turn in range(9) for line in (f"advance {turn}", "turn poll", f'note "{turn}"')]
        self.assertEqual(folds(of(lines)), [])

    def test_several_turns_of_one_advance(self) -> None:
        lines = ["advance 50", *("turn poll", 'note ""', "later loop poll 9") * 10]
        self.assertEqual(folds(of(lines)), [(2, "s10.29")])

    def test_two_loops_in_turn(self) -> None:
        lines = [line for turn in range(7) for line in (f"advance {turn}", "turn a", f"advance {turn}", "turn b", 'note ""')]
        self.assertEqual(folds(of(lines)), [(2, "s7.33")])


class All(unittest.TestCase):
    """Folds of all kinds of runs."""

    def test_they_hide_what_is_there_and_lie_in_one_another(self) -> None:
        count = 0
        for sample in [*samples.rows(), *samples.told_by_the_program(), samples.Sample("recorded", samples.recorded())]:
            for one in found(sample.run):
                count += 1
                self.assertTrue(0 <= one.first <= one.last < len(sample.run.fold.rows), sample.name)
                self.assertFalse(one.first <= one.row <= one.last, sample.name)
        self.assertGreater(count, 60)

    def test_a_long_run_takes_no_longer_than_its_lines(self) -> None:
        seconds = []
        for turns, more in ((300, ["add #0"]), (3_000, ["add #0"])):
            run = of(polling(turns, *more))
            begun = time.process_time()
            self.assertEqual(len(folds(run)), 1)
            seconds.append(time.process_time() - begun)
        self.assertLess(seconds[1], 30 * seconds[0])

    def test_parts_that_come_again_without_a_turn_take_no_longer(self) -> None:
        run = of([line for at in range(20_000) for line in (f"advance {at}", "call c")])
        begun = time.process_time()
        self.assertEqual(folds(run), [])
        self.assertLess(time.process_time() - begun, 2)


class Same(unittest.TestCase):
    """Equal lines are one row."""

    def test_five_equal_lines_of_an_event(self) -> None:
        rows = of(["new #0 d", *["cancel #0"] * 5, 'note ""', *["add #0"] * 4]).fold.rows
        self.assertEqual(same_lines(rows, range(len(rows))), {1: 5})
        self.assertEqual(same_lines(rows, range(2, len(rows))), {})
        self.assertEqual(same_lines(rows, range(3, 3)), {})


if __name__ == "__main__":
    unittest.main()
