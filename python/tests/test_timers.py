"""Timers of `addTimeout`: on real Twisted, and recorded. What is expected is worked out by hand from docs/SCRIPT.md."""

from __future__ import annotations

import builtins
import json
import unittest
from typing import Any, Callable, List

from twisted.internet import defer, task

from deferreds.twisted.instruments import install
from deferreds.twisted.profile import Entry
from deferreds.twisted.running import run
from deferreds.twisted.telling import KINDS

from .test_recording import recorded
from .test_running import entries, ran


class OnTwisted(unittest.TestCase):
    """Scripts with timers."""

    def test_a_timer_that_comes_due(self) -> None:
        run_ = ran(["deferred", "d"], ["addTimeout", "d", 5], ["advance", 5], ["callback", "d", 1])
        self.assertEqual(
            run_.output.splitlines(),
            [
                "new #0 d",
                "later timeout #0 5",
                "add #0",
                "add #0",
                "advance 5",
                "timeout #0",
                "cancel #0",
                'fire #0 fail CancelledError ""',
                "run #0",
                'set #0 fail TimeoutError ""',
                "run #0",
                'set #0 fail TimeoutError ""',
                "swallow #0",
                '#0 d fail TimeoutError ""',
            ],
        )

    def test_a_timer_that_has_ended_never_comes_due(self) -> None:
        run_ = ran(["deferred", "d"], ["addTimeout", "d", 5], ["callback", "d", 1], ["advance", 5])
        journal = ["add #0", "fire #0 ok 1", "run #0", "set #0 ok 1", "run #0", "set #0 ok 1", "advance 5"]
        self.assertEqual(run_.journal[3:], journal)

    def test_what_is_due_next_follows_the_error_of_a_canceller(self) -> None:
        run_ = ran(
            ["deferred", "d", {"end": ["raise", "ValueError", "no"]}],
            ["addTimeout", "d", 1],
            ["later", "c", 1, {"do": [["note", "next"]]}],
            ["advance", 1],
        )
        due = ["timeout #0", "cancel #0", 'unhandled ValueError "no"', "call c", 'note "next"']
        self.assertEqual(run_.journal[-5:], due)
        self.assertEqual(run_.outcomes, ["#0 d unfired"])
        self.assertEqual(entries(run_), [])

    def test_two_timers_whose_cancellers_fail_alike_are_told_of_each(self) -> None:
        cancel = {"do": [["cancelCall", "none"]]}
        run_ = ran(
            ["deferred", "d", cancel],
            ["deferred", "e", cancel],
            ["addTimeout", "d", 1],
            ["addTimeout", "e", 1],
            ["advance", 1],
        )
        self.assertEqual(run_.journal.count('unhandled NameError "none"'), 2)

    def test_a_timer_for_which_the_journal_has_no_room_is_not_set(self) -> None:
        run_ = ran(["deferred", "d"], ["addTimeout", "d", 0], ["advance", 0], limit=1)
        self.assertEqual((run_.stopped, run_.journal), (True, ["new #0 d"]))

    def test_a_run_that_stops_where_a_timer_comes_due(self) -> None:
        run_ = ran(["deferred", "d"], ["addTimeout", "d", 0], ["advance", 0], limit=6)
        self.assertEqual((run_.stopped, run_.journal[-1]), (True, "timeout #0"))
        self.assertEqual(run_.outcomes, ["#0 d unfired"])

    def test_an_inline_body_that_is_cancelled_by_a_timer_comes_to_the_entry(self) -> None:
        run_ = ran(
            ["deferred", "e"],
            ["inline", "i", [["await", "e"]]],
            ["addTimeout", "i", 1],
            ["advance", 1],
        )
        self.assertEqual(entries(run_), [Entry.CANCELLED_INLINE])
        self.assertEqual(run_.outcomes[1], '#1 i fail TimeoutError ""')

    def test_a_script_makes_and_traps_a_timeout_error_of_its_own(self) -> None:
        run_ = ran(
            ["deferred", "d"],
            ["errback", "d", "TimeoutError", "mine"],
            ["deferred", "e"],
            ["errback", "e", "Later", "x"],
            ["addErrback", "e", {"end": ["trap", ["TimeoutError"], 1]}],
            classes=[["Later", "TimeoutError"]],
        )
        self.assertEqual(run_.outcomes, ['#0 d fail TimeoutError "mine"', "#1 e ok 1"])


class Recorded(unittest.TestCase):
    """Programs that call `addTimeout`."""

    def words(self, program: Callable[[], object], kinds: frozenset[str] = KINDS) -> List[str]:
        """The words of the events of a program that is said whole, and that its script prints as it was."""
        said = recorded(program, kinds)
        self.assertEqual(said.problems, [])
        self.assertEqual(run(said.text.encode()).output, said.output)
        events: List[Any] = json.loads(said.text)["events"]
        return [event[0] for event in events]

    def test_a_timer_on_the_clock_of_the_run_is_an_action(self) -> None:
        def program() -> None:
            clock = task.Clock()
            late: defer.Deferred[int] = defer.Deferred()
            late.addTimeout(1.5, clock).addErrback(lambda failure: failure.trap(defer.TimeoutError))
            clock.advance(2)

        self.assertEqual(self.words(program), ["deferred", "addTimeout", "addErrback", "advance"])
        events = json.loads(recorded(program).text)["events"]
        self.assertEqual((events[1][2], events[3]), (3, ["advance", 4]))

    def test_a_timer_in_a_body_is_an_action_of_the_body(self) -> None:
        def program() -> None:
            clock = task.Clock()
            inner: defer.Deferred[int] = defer.Deferred()
            defer.succeed(2).addCallback(lambda seconds: inner.addTimeout(seconds, clock))
            clock.advance(2)

        events = json.loads(recorded(program).text)["events"]
        body = next(event[2] for event in events if event[0] == "addCallback")
        self.assertEqual([action[0] for action in body["do"]], ["addTimeout"])
        self.words(program)

    def test_what_the_program_does_with_a_time_out_is_the_body_of_the_timer(self) -> None:
        def program() -> None:
            clock = task.Clock()
            late: defer.Deferred[str] = defer.Deferred()
            late.addTimeout(1, clock, lambda value, seconds: "late")
            clock.advance(1)

        self.assertEqual(self.words(program), ["deferred", "addTimeout", "advance"])
        script = json.loads(recorded(program).text)
        self.assertEqual((script["version"], script["events"][1][2:]), (3, [1, {"end": ["return", "late"]}]))

    def test_what_it_does_may_be_more_than_a_value(self) -> None:
        def program() -> None:
            clock = task.Clock()
            late: defer.Deferred[str] = defer.Deferred()
            other: defer.Deferred[str] = defer.Deferred()

            def handle(value: object, seconds: float) -> defer.Deferred[str]:
                other.callback("other")
                return other

            late.addTimeout(1, clock, handle)
            clock.advance(1)

        body = json.loads(recorded(program).text)["events"][2][3]
        self.assertEqual(([action[0] for action in body["do"]], body["end"][0]), (["callback"], "wait"))
        self.words(program)

    def test_where_a_time_out_does_not_come_its_body_is_empty(self) -> None:
        def program() -> None:
            clock = task.Clock()
            soon: defer.Deferred[int] = defer.Deferred()
            soon.addTimeout(3, clock, lambda value, seconds: "late")
            soon.callback(1)
            clock.advance(4)

        self.assertEqual(json.loads(recorded(program).text)["events"][1][3], {})
        self.words(program)

    def test_a_timer_on_another_clock_is_told_one_level_down(self) -> None:
        def program() -> None:
            first, other = task.Clock(), task.Clock()
            first.callLater(5, lambda: None)
            late: defer.Deferred[int] = defer.Deferred()
            late.addTimeout(1, other)
            other.advance(1)

        words = ["later", "deferred", "addBoth", "addBoth", "cancel"]
        self.assertEqual(self.words(program), words)

    def test_where_no_clock_is_told_a_timer_is_told_one_level_down(self) -> None:
        def program() -> None:
            clock = task.Clock()
            late: defer.Deferred[int] = defer.Deferred()
            late.addTimeout(1, clock)
            clock.advance(1)

        words = ["deferred", "addBoth", "addBoth", "cancel"]
        self.assertEqual(self.words(program, KINDS - {"clock", "loop"}), words)

    def test_an_error_of_a_canceller_leaves_the_advance(self) -> None:
        def program() -> None:
            clock = task.Clock()

            def fail(deferred: defer.Deferred[int]) -> None:
                raise ValueError("no")

            defer.Deferred(fail).addTimeout(1, clock)
            with self.assertRaises(ValueError):
                clock.advance(1)

        said = recorded(program)
        self.assertEqual(said.journal[-3:], ["timeout #0", "cancel #0", 'unhandled ValueError "no"'])
        self.words(program)

    def test_what_is_due_after_such_an_error_is_at_the_entry(self) -> None:
        def program() -> None:
            clock = task.Clock()

            def fail(deferred: defer.Deferred[int]) -> None:
                raise ValueError("no")

            defer.Deferred(fail).addTimeout(1, clock)
            clock.callLater(1, lambda: None)
            with self.assertRaises(ValueError):
                clock.advance(1)

        self.assertEqual([entry for _, entry in recorded(program).quirks], [Entry.ERROR_LEAVES_ADVANCE])

    def test_a_timer_that_the_program_ends_by_the_clock_is_told_one_level_down(self) -> None:
        def program() -> None:
            clock = task.Clock()
            late: defer.Deferred[int] = defer.Deferred()
            late.addTimeout(1, clock)
            clock.getDelayedCalls()[0].cancel()

        problems = recorded(program).problems
        reasons = [(problem.reason, problem.kind) for problem in problems]
        self.assertEqual(reasons, [("the cancel of a timer that addTimeout has set", "timer")])
        words = ["deferred", "later", "addBoth", "addBoth", "cancelCall"]
        self.assertEqual(self.words(program, KINDS - {"timer"}), words)

    def test_another_class_of_that_name_gets_another_name(self) -> None:
        said = recorded(lambda: defer.fail(builtins.TimeoutError("x")).addErrback(lambda _: None))
        declared = json.loads(said.text)["classes"]
        self.assertEqual(declared, [["OSError", "Exception"], ["TimeoutError_2", "OSError"]])

    def test_nothing_is_told_where_nobody_watches(self) -> None:
        install()
        clock = task.Clock()
        late: defer.Deferred[int] = defer.Deferred()
        self.assertIs(late.addTimeout(1, clock, lambda value, seconds: "late"), late)
        clock.advance(1)
        self.assertEqual(late.result, "late")


if __name__ == "__main__":
    unittest.main()
