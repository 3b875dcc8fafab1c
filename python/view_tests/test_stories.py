"""The steps of Deferreds, and the tree of one with all that hangs on it."""

from __future__ import annotations

import unittest
from typing import List

from deferreds.view.branches import Tree, found
from deferreds.view.run import Run, run_of_facts, run_of_journal
from deferreds.view.facts import read_facts
from deferreds.view.places import Places
from deferreds.view.stories import MOST_BRANCHES, Does
from deferreds.view.terminal import Terminal

from . import samples
from .stand_in import deferred, stuck, thing, told


def of(lines: List[str], *ends: str) -> Run:
    """The run of a journal."""
    return run_of_journal("".join(f"{line}\n" for line in [*lines, *ends]), "t")


def signs(run: Run, number: int) -> List[str]:
    """The branches of a tree: depth, letter, row, whom it names, and a star where that is told below."""
    return [
        f"{one.depth}{one.step.does.value}{'' if one.step.row is None else one.step.row}"
        f"{'' if one.step.other is None else f'#{one.step.other}'}{'*' if one.opens else ''}"
        for one in run.stories.tree(number)
    ]


_HANDED = [
    "new #0 outer", "new #1 inner", "add #0", "fire #0 ok 0", "run #0", "wait #0 #1", "advance 4", "fire #1 ok 41",
    "hand #1 #0 ok 41", "run #0", 'note "on"', "set #0 ok 42", "run #1", "set #1 ok null",
]  # fmt: skip


class Trees(unittest.TestCase):
    """Whom a Deferred waits for, who fires it, what its sides lead to."""

    def test_who_is_waited_for_is_told_below(self) -> None:
        run = of(_HANDED, "#0 outer ok 42", "#1 inner ok null")
        self.assertEqual(signs(run, 0), ["1m0", "1f3", "1r4", "1w5#1*", "2m1", "2f7", "2r12", "1r9", "2o10"])
        self.assertEqual(signs(run, 1), ["1m1", "1f7", "1r12"])
        self.assertEqual((run.stories.of[0][3].row, run.stories.of[0][3].end), (5, 8))

    def test_its_own_time(self) -> None:
        run = of(_HANDED, "#0 outer ok 42", "#1 inner ok null")
        self.assertEqual(run.durations.of(run.fold.records[0]), (0, 4, 0, 2))
        self.assertEqual(run.durations.of(run.fold.records[1]), (4, 0, 0, 1))
        run.tick = "1/4 s"
        self.assertIn("waited 1 s", Tree(run, 0).spent(run.fold.records[0]))

    def test_what_a_side_leads_to_is_told_below_it(self) -> None:
        lines = ["new #0 a", "new #1 b", "fire #0 ok 1", "run #0", "new #2 c", "fire #1 ok 1", "run #1", "cancel #2", "set #1 ok 2", "set #0 ok 3"]
        run = of(lines)
        self.assertEqual(
            signs(run, 0),
            ["1m0", "1f2", "1r3", "2n4#2*", "3m4#0", "3a7#1", "2g5#1*", "3m1", "3f5#0", "3r6", "4o7#2"],
        )
        self.assertEqual(signs(run, 1), ["1m1", "1f5#0*", "2f2", "1r6", "2o7#2"])

    def test_an_inline_body_goes_on_in_the_side_of_whom_it_awaits(self) -> None:
        lines = ["new #0 body", "new #1 x", "await #0 #1", "add #1", "advance 3", "fire #1 ok 1", "run #1", "fire #0 ok 1", "set #1 ok null"]
        run = of(lines)
        self.assertEqual(signs(run, 0), ["1m0", "1n1#1", "1w2#1*", "2m1", "2f5", "2r6", "3g7#0", "1f7#1"])
        self.assertEqual(run.stories.of[0][2].end, 6)

    def test_a_body_has_what_it_did_before_it_awaited(self) -> None:
        lines = ["lock l", "new #0 body", "new #1 t", "acquire l #1", 'fire #1 ok "l"', "note 1", "new #2 d", "await #0 #2", "add #2", "note 2"]
        self.assertEqual(signs(of(lines), 0), ["1m1", "1n2#1*", "2m2", "2f4", "1o3#1", "1g4#1", "1o5", "1n6#2", "1w7#2*", "2m6"])

    def test_one_that_awaits_what_is_fired_goes_on_at_once(self) -> None:
        lines = ["new #0 body", "new #1 x", "fire #1 ok 1", "await #0 #1", "add #1", "run #1", "set #1 ok null", "new #2 y", "await #0 #2", "add #2"]
        run = of(lines)
        self.assertEqual([(step.row, step.end) for step in run.stories.of[0] if step.does is Does.WAITS], [(3, 5), (8, None)])
        self.assertEqual([step.does for step in run.stories.of[1] if step.does is Does.AWAITED], [])

    def test_what_is_unfired_has_those_who_await_it_and_its_pairs(self) -> None:
        lines = ["new #0 body", "new #1 ask", "await #0 #1", "add #1", "new #2 d", "fire #2 ok 1", "run #2", "wait #2 #1"]
        run = of(lines)
        run.places = Places({}, {}, calls={"body": "get(key=3)"})
        self.assertEqual(signs(run, 1), ["1m1", "1b2#0", "1b7#2"])
        self.assertEqual(
            list(Terminal(run, False).tree(1)),
            [
                "#1·ask unfired: unfired 0 ticks, waited 0 ticks, 0 callbacks ran, 1 pair waits",
                "├ is made  (line 2)",
                "├ is awaited by #0·body, called as get(key=3)  (line 3)",
                "├ is awaited by #2·d  (line 8)",
            ],
        )
        self.assertEqual(signs(run, 0)[-2:], ["1w2#1*", "2m1"])
        self.assertTrue(next(iter(Terminal(run, False).tree(0))).startswith("#0·body, called as get(key=3), unfired: "))

    def test_firings_without_effect_are_steps_and_are_counted(self) -> None:
        run = of(["new #0 a", "cancel #0", 'fire #0 fail CancelledError ""', "swallow #0", "refuse #0", "refuse #0"])
        self.assertEqual(signs(run, 0), ["1m0", "1a1", "1f2", "1s3", "1x4", "1x5"])
        head = next(iter(Terminal(run, False).tree(0)))
        self.assertTrue(head.endswith("0 callbacks ran, 2 firings refused, 1 firing swallowed in line 4, line 5, line 6"), head)

    def test_a_call_that_a_side_schedules_has_below_it_what_it_did(self) -> None:
        run = next(one.run for one in samples.told_by_the_program() if one.name == "retried")
        calls = [step for steps in run.stories.of.values() for one in steps for step in run.stories.inside(one) if step.does is Does.CALLS]
        self.assertTrue(calls)
        self.assertTrue(any(run.stories.inside(step) for step in calls))
        for step in calls:
            for inner in run.stories.inside(step):
                self.assertEqual(run.fold.rows[inner.row or 0].inside, step.end)

    def test_a_call_that_was_reset_is_told_where_it_was_scheduled(self) -> None:
        run = of(["new #0 d", "add #0", "fire #0 ok 1", "run #0", "later call c 5", "reset c 7", "set #0 ok 1", "advance 7", "call c", 'note "x"'])
        side = next(step for step in run.stories.of[0] if step.does is Does.RAN)
        inner = [(step.does, step.row, step.end) for step in run.stories.inside(side)]
        self.assertEqual(inner, [(Does.CALLS, 4, 8), (Does.OTHER, 5, None)])

    def test_on_what_it_hangs_at_the_end(self) -> None:
        facts = told(
            "new #0 d\nnew #1 e\nlock l\nnew #2 f\n#0 d unfired\n#1 e unfired\n#2 f unfired\n", [0],
            [stuck(0, "unfired", {"at": "child", "deferred": deferred(1)}, {"at": "lock", "object": thing("lock", 0)}),
             stuck(2, "unfired", {"at": "chain", "deferred": deferred(1)})],
        )  # fmt: skip
        run = run_of_facts(read_facts(facts), samples.Script(), "t")
        self.assertEqual(signs(run, 0), ["1m0", "1c#1*", "2m1", "1h"])
        lines = list(Terminal(run, False).tree(0))
        self.assertEqual(lines[1:], [
            "├ is made  (line 1)", "├ waits for its child #1·e", "│ ├ is made  (line 2)", "├ waits for a token of l",
        ])  # fmt: skip
        self.assertIn("├ is fired by a pair of #1·e", list(Terminal(run, False).tree(2)))

    def test_long_chains_and_circles_end(self) -> None:
        many = 5_000
        lines = [f"new #{number} d" for number in range(many)]
        for number in range(many):
            lines += [f"fire #{number} ok 1", f"run #{number}", f"wait #{number} #{(number + 1) % many}"]
        run = of(lines)
        self.assertEqual(len(signs(run, 0)), 4 * many + 1)
        printed = list(Terminal(run, False).tree(0))
        self.assertEqual(len(printed), MOST_BRANCHES + 2)
        self.assertIn("at most", printed[-1])


class Found(unittest.TestCase):
    """A Deferred is named by its number or its name."""

    def test_by_number_and_name(self) -> None:
        run = of(["new #0 a", "new #1 b", "new #2 a"])
        self.assertEqual([found(run, asked) for asked in ("1", "#1", "b", "a", "3", "", "²")], [[1], [1], [1], [0, 2], None, None, None])


class Written(unittest.TestCase):
    """What the page has of the steps."""

    def test_a_line_for_each(self) -> None:
        run = of(_HANDED, "#0 outer ok 42", "#1 inner ok null")
        lines = [run.stories.written(number, run.durations) for number in run.fold.records]
        self.assertEqual(lines[0], "m0 f3 r4-5 w5-8,4#1 r9-11 ( o10 )")
        self.assertEqual(lines[1], "m1 f7 r12-13")


if __name__ == "__main__":
    unittest.main()
