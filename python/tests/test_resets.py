"""Delayed calls that are reset or delayed: on real Twisted, and recorded. What is expected is worked out by hand from docs/SCRIPT.md,
and from docs/TWISTED.md for what its entries `reset-order` and `delay-bounds` say."""

from __future__ import annotations

import json
import unittest
from typing import Any, Callable, List

from twisted.internet import defer, task

from deferreds.twisted.profile import Entry
from deferreds.twisted.recording.recorder import Recorder
from deferreds.twisted.recording.saying import Said
from deferreds.twisted.running import Run, run
from deferreds.twisted.telling import KINDS

from .test_recording import recorded
from .test_running import entries, ran


def third(*events: Any, **keys: Any) -> Run:
    """The run of a script of version 3 of these events."""
    return ran(*events, **{"version": 3, **keys})


class OnTwisted(unittest.TestCase):
    """Scripts with the two actions."""

    def assert_journal(self, run_: Run, *expected: str, last: int = 0) -> None:
        """The run has these lines, or these last ones, and reaches no entry."""
        self.assertEqual(run_.journal[-last:], list(expected))
        self.assertEqual(entries(run_), [])

    def test_from_now_and_from_when_it_was_due(self) -> None:
        run_ = third(
            ["later", "a", 5, {}], ["later", "b", 5, {}], ["advance", 2],
            ["resetCall", "a", 4], ["delayCall", "b", 4], ["advance", 4], ["advance", 3],
        )  # fmt: skip
        self.assert_journal(run_, "reset a 6", "reset b 9", "advance 6", "call a", "advance 9", "call b", last=6)

    def test_a_call_that_waits_no_longer(self) -> None:
        for word in ("resetCall", "delayCall"):
            with self.subTest(word):
                run_ = third(["later", "a", 1, {"do": [[word, "a", 1]]}], ["advance", 1], [word, "a", 1])
                self.assert_journal(run_, "call a", 'unhandled AlreadyCalled ""', 'unhandled AlreadyCalled ""', last=3)
                run_ = third(["later", "a", 1, {}], ["cancelCall", "a"], [word, "a", 1], [word, "b", 1])
                self.assert_journal(run_, "uncall a", 'unhandled AlreadyCancelled ""', 'unhandled NameError "b"', last=3)

    def test_the_line_that_would_pass_the_limit_changes_nothing(self) -> None:
        run_ = third(["later", "a", 1, {}], ["resetCall", "a", 0], ["advance", 0], limit=1)
        self.assertEqual((run_.stopped, run_.journal), (True, ["later call a 1"]))

    def test_clock_runs_another_call_first_of_those_that_are_due_at_one_time(self) -> None:
        calls = [["later", "a", 9, {}], ["later", "b", 5, {}]]
        run_ = third(*calls, ["resetCall", "a", 5], ["advance", 5])
        self.assertEqual(run_.journal[-3:], ["advance 5", "call b", "call a"])
        # it is noted where the calls run: the lines before agree
        self.assertEqual(run_.quirks, [(4, Entry.RESET_ORDER)])
        calls = [["later", "a", 5, {}], ["later", "b", 1, {}]]
        run_ = third(*calls, ["delayCall", "b", 4], ["advance", 5])
        self.assertEqual((run_.journal[-2:], entries(run_)), (["call b", "call a"], [Entry.RESET_ORDER]))

    def test_inside_an_advance_too(self) -> None:
        run_ = third(
            ["later", "a", 1, {"do": [["resetCall", "b", 0]]}],
            ["later", "b", 9, {}],
            ["later", "c", 5, {}],
            ["advance", 5],
        )
        self.assertEqual((run_.journal[-2:], run_.quirks), (["call c", "call b"], [(6, Entry.RESET_ORDER)]))

    def test_a_timer_a_tick_and_a_turn_that_run_first(self) -> None:
        for scheduled in (["addTimeout", "d", 5], ["cooperate", "t", []], ["loop", "p", "e", 5, False, {}], ["thread", "e", 5, ["sum", 1]]):
            with self.subTest(scheduled[0]):
                run_ = third(
                    ["deferred", "d"], ["later", "a", 9, {}], scheduled, ["resetCall", "a", 5], ["advance", 5],
                    cooperator={"units": 1, "delay": 5},
                )  # fmt: skip
                self.assertIn(Entry.RESET_ORDER, entries(run_))

    def test_ties_that_clock_runs_in_the_order_of_scheduling_come_to_none(self) -> None:
        run_ = third(["later", "a", 5, {}], ["later", "b", 5, {}], ["resetCall", "a", 9], ["resetCall", "a", 5], ["advance", 5])
        self.assert_journal(run_, "call a", "call b", last=2)
        run_ = third(["later", "a", 1, {}], ["resetCall", "a", 5], ["later", "b", 5, {}], ["advance", 5])
        self.assert_journal(run_, "call a", "call b", last=2)

    def test_a_call_that_would_run_first_and_is_cancelled_before_comes_to_none(self) -> None:
        run_ = third(
            ["later", "a", 9, {}], ["later", "b", 5, {}], ["resetCall", "a", 5],
            ["later", "c", 1, {"do": [["later", "e", 9, {}], ["cancelCall", "b"]]}], ["advance", 5],
        )  # fmt: skip
        self.assert_journal(run_, "uncall b", "call a", last=2)

    def test_nothing_that_is_due_is_left_after_an_advance_in_which_calls_are_reset(self) -> None:
        run_ = third(
            ["later", "a", 1, {"do": [["resetCall", "b", 9], ["resetCall", "e", 0]]}],
            ["later", "b", 2, {}], ["later", "c", 3, {}], ["later", "e", 9, {}],
            ["advance", 5],
        )  # fmt: skip
        self.assert_journal(run_, "call a", "reset b 14", "reset e 5", "call c", "call e", last=5)

    def test_an_overdue_call_that_is_delayed_is_due_in_the_past(self) -> None:
        events = [["later", "a", 1, {"do": [["delayCall", "b", 2]]}], ["later", "b", 1, {}], ["later", "c", 4, {}], ["advance", 5]]
        run_ = third(*events)
        self.assertEqual(run_.journal[-3:], ["reset b 3", "call b", "call c"])
        self.assertEqual(run_.quirks, [(5, Entry.DELAY_BOUNDS)])

    def test_a_call_may_be_due_later_than_the_language_has_times(self) -> None:
        late = [["advance", 10**15], ["later", "a", 10**12 - 1, {}], ["delayCall", "a", 1]]
        self.assertEqual(entries(third(*late)), [])
        run_ = third(*late, ["delayCall", "a", 1])
        self.assertEqual(run_.journal[-2:], ["reset a 1001000000000000", "reset a 1001000000000001"])
        self.assertEqual(entries(run_), [Entry.DELAY_BOUNDS])


class Recorded(unittest.TestCase):
    """Programs that reset and delay calls of a Clock."""

    def events(self, program: Callable[[], object], kinds: frozenset[str] = KINDS) -> List[Any]:
        """The events of a program that is said whole, in the least version that has its words, and that its script prints as it was."""
        said = recorded(program, kinds)
        self.assertEqual(said.problems, [])
        again = run(said.text.encode())
        self.assertEqual((again.output, again.quirks), (said.output, said.quirks))
        script = json.loads(said.text)
        moves = '["resetCall"' in said.text or '["delayCall"' in said.text
        self.assertEqual(script["version"], 3 if moves else 1)
        events: List[Any] = script["events"]
        return events

    def test_each_is_one_action_and_one_line(self) -> None:
        def program() -> None:
            clock = task.Clock()
            call = clock.callLater(2, lambda: None)
            clock.advance(1)
            call.reset(2)
            call.delay(0.5)
            clock.advance(2.5)

        events = self.events(program)
        self.assertEqual([event[0] for event in events], ["later", "advance", "resetCall", "delayCall", "advance"])
        self.assertEqual([event[2] for event in events if len(event) == 3], [4, 1])
        journal = recorded(program).journal
        self.assertEqual([line.split()[-1] for line in journal if line.startswith("reset ")], ["6", "7"])

    def test_in_bodies(self) -> None:
        def program() -> None:
            clock = task.Clock()
            idle = clock.callLater(3, lambda: None)
            line: defer.Deferred[int] = defer.Deferred()
            line.addCallback(lambda _: idle.reset(3))
            clock.callLater(2, line.callback, 1)
            clock.advance(2)
            clock.advance(3)

        events = self.events(program)
        [body] = [event[2] for event in events if event[0] == "addCallback"]
        self.assertEqual(body["do"][0][0], "resetCall")

    def test_a_call_that_is_delayed_by_less_than_nothing_is_reset(self) -> None:
        def program() -> None:
            clock = task.Clock()
            call = clock.callLater(4, lambda: None)
            clock.advance(1)
            call.delay(-1)
            clock.advance(2)

        events = self.events(program)
        self.assertEqual([event[0] for event in events], ["later", "advance", "resetCall", "advance"])
        self.assertEqual(events[2][2], 2)

    def test_a_time_that_is_past_is_refused_and_told_as_no_clock(self) -> None:
        def program() -> None:
            clock = task.Clock()
            late = clock.callLater(4, lambda: None)
            clock.advance(1)
            late.reset(-0.5)
            clock.advance(2)

        reasons = [(problem.reason, problem.kind) for problem in recorded(program).problems]
        self.assertEqual(reasons, [("a delayed call is moved to a time that is past (reset)", "clock")])
        self.assertEqual(self.events(program, KINDS - {"clock", "loop"}), [])

    def test_a_call_that_waits_no_longer(self) -> None:
        def program() -> None:
            clock = task.Clock()
            ran_, cancelled = clock.callLater(1, lambda: None), clock.callLater(2, lambda: None)
            clock.advance(1)
            cancelled.cancel()
            defer.succeed(1).addCallback(lambda _: ran_.reset(1)).addErrback(lambda _: None)
            defer.succeed(1).addCallback(lambda _: cancelled.delay(1)).addErrback(lambda _: None)

        events = self.events(program)
        bodies = [event[2] for event in events if event[0] == "addCallback"]
        self.assertEqual([body["do"][0][0] for body in bodies], ["resetCall", "delayCall"])

    def test_calls_at_one_time_in_another_order_are_at_the_entry(self) -> None:
        def program() -> None:
            clock = task.Clock()
            clock.callLater(0.3, lambda: defer.succeed("first"))
            moved = clock.callLater(0.1, lambda: defer.succeed("moved"))
            clock.advance(0.05)
            moved.reset(0.25)
            clock.advance(0.3)

        self.events(program)
        self.assertEqual([entry for _, entry in recorded(program).quirks], [Entry.RESET_ORDER])

    def test_what_is_due_after_an_error_is_at_the_entry_though_a_call_before_it_was_moved_away(self) -> None:
        def program() -> None:
            clock = task.Clock()

            def fail() -> None:
                away.reset(9)
                raise ValueError("no")

            clock.callLater(1, fail)
            away = clock.callLater(1, lambda: None)
            clock.callLater(1, lambda: None)
            with self.assertRaises(ValueError):
                clock.advance(1)

        self.assertEqual([entry for _, entry in recorded(program).quirks], [Entry.ERROR_LEAVES_ADVANCE])

    def test_a_script_of_the_beginning_has_the_version_of_that(self) -> None:
        def program() -> None:
            call = task.Clock().callLater(2, lambda: None)
            call.reset(1)

        recorder = Recorder()
        with recorder.watching():
            program()
        self.assertEqual([json.loads(Said(recorder, ended).text)["version"] for ended in (1, 2)], [1, 3])

    def test_a_value_that_begins_with_the_word_needs_no_later_version(self) -> None:
        self.events(lambda: defer.succeed(["cancelCall", "c"]))
        said = recorded(lambda: defer.succeed(["resetCall", "c", 1]))
        self.assertEqual(json.loads(said.text)["version"], 1)


if __name__ == "__main__":
    unittest.main()
