"""What scripts print on real Twisted. What is expected is worked out by hand from docs/SCRIPT.md."""

from __future__ import annotations

import json
import unittest
from typing import Any, List, Optional, Tuple

from deferreds.twisted.profile import Entry
from deferreds.twisted.running import AT_LIMIT, OVER, UNMET, Batches, Run, be_quiet, run


def ran(
    *events: Any,
    batches: Optional[Batches] = None,
    **keys: Any,
) -> Run:
    """The run of a script of these events."""
    be_quiet()
    script = {"version": 1, "events": list(events), **keys}
    return run(json.dumps(script).encode(), batches)


def entries(run_: Run) -> List[Entry]:
    """The entries of the profile that the run reached."""
    return [entry for _, entry in run_.quirks]


class Printed(unittest.TestCase):
    """Journals and outcomes."""

    def assert_prints(self, run_: Run, text: str) -> None:
        """The run printed these lines."""
        self.assertEqual(run_.output.splitlines(), [l.strip() for l in text.strip().splitlines()])

    def test_a_side_that_gives_a_fired_deferred_takes_its_value_null_too(self) -> None:
        run_ = ran(
            ["deferred", "a"],
            ["deferred", "b"],
            ["addCallback", "a", {"end": ["wait", "b"]}],
            ["callback", "b", None],
            ["callback", "a", 1],
        )
        self.assert_prints(
            run_,
            """new #0 a
            new #1 b
            add #0
            fire #1 ok null
            fire #0 ok 1
            run #0
            take #0 #1 ok null
            #0 a ok null
            #1 b ok null""",
        )

    def test_a_hand_over_leaves_null_in_the_giver(self) -> None:
        run_ = ran(
            ["deferred", "a"],
            ["deferred", "b"],
            ["addCallback", "a", {"end": ["wait", "b"]}],
            ["callback", "a", 0],
            ["callback", "b", 5],
        )
        self.assert_prints(
            run_,
            """new #0 a
            new #1 b
            add #0
            fire #0 ok 0
            run #0
            wait #0 #1
            fire #1 ok 5
            hand #1 #0 ok 5
            #0 a ok 5
            #1 b ok null""",
        )

    def test_what_is_gathered_of_two(self) -> None:
        run_ = ran(
            ["deferred", "a"],
            ["gather", "g", ["a", "a"], []],
            ["callback", "a", "x"],
        )
        self.assert_prints(
            run_,
            """new #0 a
            new #1 g
            add #0
            add #0
            add #1
            fire #0 ok "x"
            run #0
            set #0 ok "x"
            run #0
            fire #1 ok [[true,"x"],[true,"x"]]
            run #1
            set #1 ok ["x","x"]
            set #0 ok "x"
            #0 a ok "x"
            #1 g ok ["x","x"]""",
        )

    def test_a_first_error_shows_what_it_holds(self) -> None:
        run_ = ran(
            ["deferred", "a"],
            ["gather", "g", ["a"], ["consumeErrors"]],
            ["errback", "a", "ValueError", "no"],
        )
        self.assertEqual(
            run_.outcomes,
            ['#0 a ok null', '#1 g fail FirstError "" at 0 of ValueError "no"'],
        )

    def test_a_list_that_is_fired_by_hand_shows_that(self) -> None:
        run_ = ran(
            ["deferred", "a"],
            ["deferred", "b"],
            ["list", "l", ["a", "b"], []],
            ["callback", "a", 1],
            ["callback", "l", [[]]],
        )
        self.assertEqual(run_.outcomes[2], "#2 l ok [[]]")

    def test_a_name_that_is_not_bound(self) -> None:
        run_ = ran(["callback", "z", 1], ["acquire", "d", "l"], ["lock", "l"], ["acquire", "d", "l"])
        self.assert_prints(
            run_,
            """unhandled NameError "z"
            unhandled NameError "l"
            lock l
            new #0 d
            acquire l #0
            fire #0 ok "l"
            #0 d ok "l\"""",
        )

    def test_a_failure_of_an_end_is_caught_from_version_3_on(self) -> None:
        raised = ["try", [["end", ["raise", "ValueError", "x"]]], ["Exception"], [["end", ["pass"]]]]
        for version, outcome in ((1, 'fail ValueError "x"'), (2, 'fail ValueError "x"'), (3, "ok null")):
            with self.subTest(version=version):
                run_ = ran(["inline", "d", [raised]], version=version)
                self.assertEqual(run_.outcomes, [f"#0 d {outcome}"])

    def test_what_a_caller_of_an_inline_body_handles_is_not_active_in_it(self) -> None:
        run_ = ran(
            ["deferred", "a"],
            ["inline", "d", [["await", "a"], ["raise"]]],
            ["inline", "e", [["try", [["await", "z"]], ["NameError"], [["do", ["callback", "a", 1]]]]]],
            version=3,
        )
        self.assertIn('#1 d fail RuntimeError "no active exception"', run_.outcomes)

    def test_results_of_jobs_come_at_their_times(self) -> None:
        run_ = ran(
            ["thread", "a", 5, ["sum", 10]],
            ["thread", "b", 2, ["raise", "ValueError", "no"]],
            ["advance", 5],
        )
        self.assert_prints(
            run_,
            """new #0 a
            job 0 #0
            later job 0 5
            new #1 b
            job 1 #1
            later job 1 2
            advance 5
            deliver 1
            fire #1 fail ValueError "no"
            deliver 0
            fire #0 ok 55
            #0 a ok 55
            #1 b fail ValueError "no\"""",
        )

    def test_jobs_of_all_pools_are_numbered_in_one_row(self) -> None:
        run_ = ran(
            ["threadIn", "a", "io", 5, ["sum", 10]],
            ["threadIn", "b", "cpu", 2, ["raise", "ValueError", "no"]],
            ["thread", "io", 2, ["value", 7]],
            ["advance", 2],
            version=2,
            pools=[["io", 2], ["cpu", 0]],
        )
        self.assert_prints(
            run_,
            """new #0 a
            job 0 #0
            later job 0 5
            new #1 b
            job 1 #1
            later job 1 2
            new #2 io
            job 2 #2
            later job 2 2
            advance 2
            deliver 1
            fire #1 fail ValueError "no"
            deliver 2
            fire #2 ok 7
            #0 a unfired
            #1 b fail ValueError "no"
            #2 io ok 7""",
        )

    def test_a_run_has_4096_jobs_of_all_pools_at_most(self) -> None:
        job: List[Any] = ["threadIn", "a", "io", 9, ["value", 0]]
        events: List[Any] = [["thread", "a", 9, ["value", 0]], *[job] * 4_095]
        for at in range(3_584, 0, -512):  # the results of all but the last 512 come: each one that is awaited costs the clock
            events.insert(at, ["advance", 9])
        run_ = ran(*events, job, version=2, pools=[["io", 1]], limit=50_000)
        self.assertEqual(run_.journal[-2], "later job 4095 72")
        self.assertEqual(run_.journal[-1], 'unhandled RuntimeError "too many jobs"')
        self.assertEqual(len(run_.outcomes), 4_096)

    def test_posts_are_performed_in_the_batches_that_are_given(self) -> None:
        callers = [[{"do": [["note", "a"]]}], [{"do": [["note", "b"]]}]]
        run_ = ran(["drain", 2], callers=callers, batches=[[(1, 0)], [(0, 0)]])
        self.assert_prints(
            run_,
            """drain
            post 1 0
            note "b"
            post 0 0
            note "a\"""",
        )

    def test_without_batches_each_drain_takes_what_it_may(self) -> None:
        callers = [[{}, {}], [{}]]
        run_ = ran(["drain", 2], callers=callers)
        self.assertEqual(run_.journal, ["drain", "post 0 0", "post 1 0", "post 0 1"])


class Limits(unittest.TestCase):
    """Where a run stops."""

    def test_the_line_that_would_pass_the_limit_changes_nothing(self) -> None:
        events = (
            ["deferred", "d"],
            ["addCallback", "d", {"end": ["plus", 2]}],
            ["callback", "d", 1],
            ["note", "x"],
        )
        fits = ran(*events, limit=10)
        self.assertEqual((fits.stopped, fits.journal[-1]), (False, 'note "x"'))
        stops = ran(*events, limit=6)
        self.assertTrue(stops.stopped)
        self.assertEqual(stops.journal, ["new #0 d", "add #0", "fire #0 ok 1", "run #0"])
        self.assertEqual(stops.outcomes, ["#0 d ok 1"])

    def test_a_value_that_cannot_be_told_to_be_taken_stays(self) -> None:
        events = (
            ["deferred", "a"],
            ["deferred", "b"],
            ["callback", "b", "xyz"],
            ["addCallback", "a", {"end": ["wait", "b"]}],
            ["callback", "a", 1],
        )
        # new 1, new 1, fire 1 + 4, add 1, fire 1 + 1, run 1: 11, and take 1 + 4
        self.assertEqual(ran(*events, limit=15).outcomes, ["#0 a ok 1", '#1 b ok "xyz"'])
        self.assertEqual(ran(*events, limit=16).outcomes, ['#0 a ok "xyz"', "#1 b ok null"])

    def test_what_never_ends_ends_at_the_limit(self) -> None:
        run_ = ran(["deferred", "d", {"do": [["cancel", "@"]]}], ["cancel", "d"], limit=50)
        self.assertEqual((run_.stopped, len(run_.journal)), (True, 50))


class Expecting(unittest.TestCase):
    """What is expected, of the real Deferreds."""

    def test_what_is_met_is_told(self) -> None:
        events = (
            ["deferred", "a"],
            ["deferred", "b"],
            ["addCallback", "a", {"end": ["wait", "b"]}],
            ["callback", "a", 1],
            ["expect", "a", ["waiting"]],
            ["expect", "b", ["unfired"]],
            ["callback", "b", [True, {"fail": "ValueError", "message": "x"}]],
            ["expect", "a", ["ok", [True, {"fail": "ValueError", "message": "x"}]]],
            ["errback", "b", "TypeError", ""],
            ["expect", "b", ["ok", None]],
        )
        run_ = ran(*events, version=3)
        self.assertEqual(
            [line for line in run_.journal if line.startswith("expect")],
            [
                "expect #0 waiting #1",
                "expect #1 unfired",
                'expect #0 ok [true,{"fail":"ValueError","message":"x"}]',
                "expect #1 ok null",
            ],
        )
        self.assertEqual(run_.status, OVER)

    def test_a_paused_one_waits_until_it_is_handed_something(self) -> None:
        run_ = ran(
            ["deferred", "a"],
            ["deferred", "b"],
            ["addCallback", "a", {"end": ["wait", "b"]}],
            ["callback", "a", 0],
            ["pause", "a"],
            ["expect", "a", ["waiting"]],
            ["callback", "b", 5],
            ["expect", "a", ["ok", 5]],
            version=3,
        )
        self.assertEqual((run_.status, run_.journal[-1]), (OVER, "expect #0 ok 5"))

    def test_a_waiter_has_the_name_of_its_lock(self) -> None:
        run_ = ran(
            ["lock", "l"],
            ["acquire", "a", "l"],
            ["expect", "a", ["ok", "l"]],
            ["gather", "g", ["a"], []],
            ["expect", "g", ["ok", ["l"]]],
            ["expect", "a", ["ok", "m"]],
            version=3,
        )
        self.assertEqual(
            [line for line in run_.journal if line.startswith(("expect", "unmet"))],
            ['expect #0 ok "l"', 'expect #1 ok ["l"]', 'unmet #0 ok "l" expected ok "m"'],
        )

    def test_what_is_unmet_ends_the_run(self) -> None:
        outcomes: List[Tuple[List[Any], str]] = [
            (["unfired"], "unfired"),
            (["waiting"], "waiting"),
            (["ok", True], "ok true"),
            (["ok", 2], "ok 2"),
            (["fail", {"fail": "ValueError", "message": ""}], 'fail ValueError ""'),
        ]
        for outcome, said in outcomes:
            with self.subTest(outcome=outcome):
                run_ = ran(["deferred", "d"], ["callback", "d", 1], ["expect", "d", outcome], ["note", "no"], version=3)
                line = f"unmet #0 ok 1 expected {said}"
                self.assertEqual((run_.status, run_.journal[-1], run_.outcomes), (UNMET, line, ["#0 d ok 1"]))

    def test_a_name_that_is_unbound_ends_it_too(self) -> None:
        run_ = ran(["expect", "d", ["unfired"]], ["deferred", "d"], version=3)
        self.assertEqual((run_.status, run_.journal), (UNMET, ['unbound "d"']))

    def test_what_does_not_fit_is_neither(self) -> None:
        run_ = ran(["deferred", "d"], ["expect", "d", ["waiting"]], version=3, limit=1)
        self.assertEqual((run_.status, run_.journal), (AT_LIMIT, ["new #0 d"]))


class Quirks(unittest.TestCase):
    """Where Twisted does otherwise, and the entry of the profile that says so."""

    def test_a_skipped_turn(self) -> None:
        events: List[Any] = [["cooperate", "a", [{}]]]
        events += [["cooperate", name, [{}, {}]] for name in "bc"]
        run_ = ran(*events, ["advance", 1], cooperator={"units": 8, "delay": 1})
        steps = [line[5:] for line in run_.journal if line.startswith("step")]
        self.assertEqual(steps, ["a", "b", "c", "a", "c", "b", "c", "b"])
        self.assertIn(Entry.SKIPPED_TURN, entries(run_))

    def test_a_hand_over_to_a_paused_deferred(self) -> None:
        run_ = ran(
            ["deferred", "a"],
            ["deferred", "b"],
            ["addCallback", "a", {"end": ["wait", "b"]}],
            ["callback", "a", 0],
            ["pause", "a"],
            ["addCallback", "b", {}],
            ["callback", "b", 1],
        )
        self.assertEqual(run_.journal[-1], "hand #1 #0 ok 1")
        self.assertEqual(entries(run_)[0], Entry.PAUSED_RECEIVER)

    def test_a_task_that_has_ended_when_its_deferred_comes(self) -> None:
        run_ = ran(
            ["deferred", "d"],
            ["cooperate", "t", [{"end": ["wait", "d"]}]],
            ["advance", 1],
            ["resumeTask", "t"],
            ["advance", 1],
            ["callback", "d", 1],
        )
        self.assertEqual(run_.outcomes, ['#0 d fail NotPaused ""'])
        self.assertEqual(entries(run_), [Entry.HOLD_ON_AN_ENDED_TASK])

    def test_a_plain_run_comes_to_none(self) -> None:
        run_ = ran(["deferred", "d"], ["addBoth", "d", {}], ["callback", "d", 1])
        self.assertEqual(entries(run_), [])


if __name__ == "__main__":
    unittest.main()
