"""Programs that have several Cooperators, or stop one: those after the first are recorded by name."""

from __future__ import annotations

import json
import unittest
from typing import Any, Callable, Dict, Iterator, List
from unittest import mock

from twisted.internet import defer, task

from deferreds.twisted import grammar
from deferreds.twisted.running import run
from deferreds.twisted.telling import KINDS

from .recording_of import Ended, RecordingCase
from .test_declared import Case
from .test_recording import recorded


def work(steps: int) -> Iterator[None]:
    """So many steps of a task."""
    for _ in range(steps):
        yield None


def steps_of(units: List[int]) -> Callable[[], Callable[[], bool]]:
    """Has a tick have as many steps as the first of these numbers says."""

    def begin() -> Callable[[], bool]:
        left = [units[0]]

        def is_over() -> bool:
            left[0] -= 1
            return left[0] <= 0

        return is_over

    return begin


def cooperator_on(clock: task.Clock, delay: float, units: int = 1) -> task.Cooperator:
    """A Cooperator whose ticks are so far from each other."""
    return task.Cooperator(steps_of([units]), lambda tick: clock.callLater(delay, tick))


#: by which rule tasks take turns in what is recorded
TWISTED = {"turns": grammar.TWISTED}


def words_of(script: Dict[str, Any]) -> List[str]:
    """The words of the events of a script."""
    return [event[0] for event in script["events"]]


class Several(Case):
    """Several Cooperators of a run."""

    def test_the_first_that_gets_a_task_has_no_name(self) -> None:
        def program() -> None:
            clock = task.Clock()
            idle, slow, fast = cooperator_on(clock, 1), cooperator_on(clock, 5, 2), cooperator_on(clock, 1)
            self.assertTrue(idle.running)
            fast.cooperate(work(3))
            slow.cooperate(work(2))
            slow.cooperate(work(1))
            for _ in range(12):
                clock.advance(1)

        said = self.said_of(program)
        script = json.loads(said.text)
        [[name, settings]] = script["cooperators"]
        self.assertEqual((script["version"], script["cooperator"], settings), (3, {"units": 1, "delay": 1, **TWISTED}, {"units": 2, "delay": 5, **TWISTED}))
        self.assertEqual([event[2] for event in script["events"] if event[0] == "cooperateIn"], [name, name])
        self.assertRegex(name, "^cooperator_cooperator_o")
        self.assertEqual([line for line in said.journal if "tickin" in line][:2], [f"later tickin {name} 5", f"tickin {name}"])

    def test_a_run_of_one_needs_no_names(self) -> None:
        def program() -> None:
            clock = task.Clock()
            task.Cooperator(scheduler=lambda tick: clock.callLater(1, tick)).stop()
            cooperator_on(clock, 1).cooperate(work(1))
            clock.advance(1)

        script = self.script_of(program)
        self.assertEqual((script["version"], "cooperators" in script, words_of(script)), (3, False, ["cooperate", "advance"]))

    def test_numbers_of_steps_change_by_themselves(self) -> None:
        first, second = [3], [1]

        def program() -> None:
            clock = task.Clock()
            for units in (first, second):
                cooperator = task.Cooperator(steps_of(units), lambda tick: clock.callLater(1, tick))
                cooperator.cooperate(work(20))
            clock.advance(1)
            clock.advance(1)
            second[0] = 2
            clock.advance(1)
            first[0], second[0] = 1, 4
            clock.advance(1)

        said = self.said_of(program)
        script = json.loads(said.text)
        name = script["cooperators"][0][0]
        self.assertEqual([event for event in script["events"] if "units" in event[0]], [["unitsIn", name, 2], ["units", 1], ["unitsIn", name, 4]])
        begun = [said.journal[line].split(" ")[0] for line in said.begins]
        self.assertEqual(begun, ["task", "taskin", "advance", "advance", "unitsin", "advance", "units", "unitsin", "advance"])

    def test_one_whose_tasks_have_ended_leaves_its_name_to_the_next(self) -> None:
        def program() -> None:
            clock = task.Clock()
            cooperator_on(clock, 1).cooperate(work(1))

            def download() -> None:
                cooperator = cooperator_on(clock, 1)
                defer.DeferredList([cooperator.coiterate(work(2)) for _ in range(1)])

            loop = task.LoopingCall(download)
            loop.clock = clock  # type: ignore[assignment]
            loop.start(10)
            for _ in range(35):
                clock.advance(1)

        said = self.said_of(program)
        script = json.loads(said.text)
        self.assertEqual(len(script["cooperators"]), 1)
        self.assertEqual(sum(line.startswith("taskin ") for line in said.journal), 4)

    def test_those_that_go_on_have_names_of_their_own(self) -> None:
        def program() -> None:
            clock = task.Clock()
            for _ in range(3):
                cooperator_on(clock, 1).cooperate(work(3))
            for _ in range(4):
                clock.advance(1)

        script = self.script_of(program)
        self.assertEqual(len({name for name, _ in script["cooperators"]}), 2)

    def test_no_more_get_names_than_a_script_may_have(self) -> None:
        def program() -> None:
            clock = task.Clock()
            for _ in range(6):
                cooperator_on(clock, 1).cooperate(work(2))
            for _ in range(3):
                clock.advance(1)

        with mock.patch.object(grammar, "MOST_COOPERATORS", 3):
            script = self.script_of(program)
        self.assertEqual(len(script["cooperators"]), 2)
        self.assertEqual([word for word in words_of(script) if word != "advance"], ["cooperate", "cooperateIn", "cooperateIn"] + ["later"] * 3)


class Turns(Case):
    """Tasks that take turns as Twisted has it."""

    def steps(self, program: Callable[[], object]) -> str:
        """The names of the tasks in the order of their steps, as the program makes them: `a`, `b` and so on."""
        said = self.said_of(program)
        self.assertEqual((said.quirks, said.plainly), ([], []))
        made = [line.split(" ")[1] for line in said.journal if line.startswith("task")]
        return "".join("abcdefgh"[made.index(line.split(" ")[1])] for line in said.journal if line.startswith("step "))

    def units(self, program: Callable[[], object]) -> List[int]:
        """The numbers of steps that the script sets for the Cooperator by name."""
        events = self.script_of(program)["events"]
        return [event[2] for event in events if event[0] == "unitsIn"]

    def test_when_a_task_is_held_the_next_one_is_passed_by(self) -> None:
        def program() -> None:
            clock = task.Clock()
            cooperator = cooperator_on(clock, 1)
            waited: defer.Deferred[None] = defer.Deferred()
            for each in (iter([waited]), work(2), work(2)):
                cooperator.cooperate(each)
            for _ in range(5):
                clock.advance(1)

        self.assertEqual(self.steps(program), "acbcb")

    def test_a_task_that_joins_in_a_tick_schedules_the_next_one(self) -> None:
        def program() -> None:
            clock = task.Clock()
            cooperator = cooperator_on(clock, 1, 2)

            def joined_by_another() -> Iterator[None]:
                cooperator.cooperate(work(2))
                clock.callLater(3, work, 1)
                yield None

            cooperator.cooperate(joined_by_another())
            cooperator.cooperate(work(1))
            for _ in range(5):
                clock.advance(1)

        self.assertEqual(self.steps(program), "abcacbc")

    def test_a_round_goes_on_where_the_steps_of_the_last_tick_were_used_up(self) -> None:
        def program() -> None:
            clock = task.Clock()
            cooperator = cooperator_on(clock, 1)
            cooperator.cooperate(work(0))
            clock.advance(1)
            cooperator.cooperate(work(1))
            cooperator.cooperate(work(1))
            for _ in range(4):
                clock.advance(1)

        self.assertEqual(self.steps(program), "acbcb")

    def test_a_round_begins_anew_where_the_last_tick_has_found_no_task(self) -> None:
        def program() -> None:
            clock = task.Clock()
            cooperator = cooperator_on(clock, 1, 2)
            cooperator.cooperate(work(0))
            clock.advance(1)
            cooperator.cooperate(work(1))
            cooperator.cooperate(work(1))
            for _ in range(4):
                clock.advance(1)

        self.assertEqual(self.steps(program), "abcbc")

    def one_after_another(self, *numbers: int) -> Callable[[], None]:
        """A program with Cooperators of one step a tick, which have so many tasks, one after another. They have one name."""

        def program() -> None:
            clock = task.Clock()
            cooperator_on(clock, 1).cooperate(work(1))
            for number in numbers:
                cooperator = cooperator_on(clock, 1)
                for _ in range(number):
                    cooperator.cooperate(work(1))
                for _ in range(8):
                    clock.advance(1)

        return program

    def test_the_next_one_of_a_name_begins_a_round(self) -> None:
        self.assertEqual(self.steps(self.one_after_another(1, 2)), "ababcdcd")
        self.assertEqual(self.units(self.one_after_another(1, 2)), [1000, 1])

    def test_steps_needn_t_change_where_the_next_one_has_no_more_tasks(self) -> None:
        self.assertEqual(self.units(self.one_after_another(1, 1)), [])
        self.assertEqual(self.units(self.one_after_another(2, 1, 1)), [])

    def test_one_that_was_used_before_the_recording(self) -> None:
        clock = task.Clock()
        cooperator = cooperator_on(clock, 1)
        cooperator.cooperate(work(0))
        clock.advance(1)

        def program() -> None:
            for _ in range(2):
                cooperator.cooperate(work(1))
            for _ in range(4):
                clock.advance(1)

        said = self.said_of(program)
        why = "the first Cooperator is recorded as events: a Cooperator whose tasks took turns before the recording"
        self.assertEqual([plainly.text for plainly in said.plainly], [why])


class Stopped(Case):
    """Cooperators that are stopped."""

    def test_tasks_that_take_turns_wait_or_are_paused(self) -> None:
        held: List[defer.Deferred[Any]] = []

        def program() -> None:
            clock = task.Clock()
            cooperator_on(clock, 1).cooperate(work(1))
            other = cooperator_on(clock, 2, 9)
            held.append(defer.Deferred())
            busy, waiting, paused = (other.cooperate(each) for each in (work(9), iter(held), work(9)))
            paused.pause()
            for each in (busy, waiting, paused):
                each.whenDone().addErrback(lambda failure: failure.trap(task.SchedulerStopped) and None)
            clock.advance(2)
            other.stop()
            clock.advance(2)
            paused.resume()
            held.pop().callback(None)
            other.stop()

        said = self.said_of(program)
        lines = [line.split(" ")[0] for line in said.journal if "SchedulerStopped" in line or line.startswith("stopcooperator")]
        self.assertEqual(lines, ["stopcooperator", *["end", "fire"] * 3, "stopcooperator"])
        self.assertEqual(said.quirks, [])
        self.assertNotIn("classes", json.loads(said.text))

    def test_the_first_of_a_run_has_a_name_from_the_beginning_on(self) -> None:
        def program() -> None:
            clock = task.Clock()
            first = cooperator_on(clock, 1)
            done = first.cooperate(work(5)).whenDone()
            clock.advance(1)
            done.addErrback(lambda failure: first.stop())
            first.stop()
            first.cooperate(work(1))

        script = self.script_of(program)
        self.assertEqual(("cooperator" in script, len(script["cooperators"])), (False, 1))
        self.assertEqual(words_of(script)[0], "cooperateIn")
        self.assertEqual(script["events"][3][2]["do"], [["stopCooperator", script["cooperators"][0][0]]])

    def test_one_that_was_stopped_before_is_stopped_where_it_is_met(self) -> None:
        def program() -> None:
            stopped = task.Cooperator()
            stopped.stop()
            stopped.cooperate(work(1)).whenDone().addErrback(lambda failure: None)

        script = self.script_of(program)
        self.assertEqual(words_of(script), ["stopCooperator", "cooperateIn", "whenDone", "addErrback"])

    def test_the_class_is_declared_where_the_version_has_it_not(self) -> None:
        def program() -> None:
            clock = task.Clock()
            cooperator = cooperator_on(clock, 1)
            cooperator.cooperate(work(2)).whenDone().addErrback(lambda failure: None)
            cooperator.stop()

        said = recorded(program, KINDS - {"cooperator"})
        script = json.loads(said.text)
        self.assertEqual((script["version"], script["classes"]), (1, [["SchedulerStopped", "SchedulerError"]]))
        self.assertEqual(run(said.text.encode()).output, said.output)

    def test_the_first_is_recorded_as_events_if_it_is_started_again(self) -> None:
        def program() -> None:
            clock = task.Clock()
            cooperator = cooperator_on(clock, 1)
            cooperator.cooperate(work(2)).whenDone().addErrback(lambda failure: None)
            cooperator.stop()
            cooperator.start()
            cooperator.cooperate(work(2))
            clock.advance(1)

        said = self.said_of(program)
        self.assertEqual([plainly.text for plainly in said.plainly], ["the first Cooperator is recorded as events: Cooperator.start"])
        script = json.loads(said.text)
        self.assertEqual(({"cooperator", "cooperators"} & script.keys(), words_of(script).count("later")), (set(), 2))

    def test_those_by_name_stay_if_the_first_is_recorded_as_events(self) -> None:
        def program() -> None:
            clock = task.Clock()
            delays = iter((1, 2, 3))
            task.Cooperator(steps_of([1]), lambda tick: clock.callLater(next(delays), tick)).cooperate(work(2))
            cooperator_on(clock, 1).cooperate(work(2))
            for _ in range(6):
                clock.advance(1)

        said = self.said_of(program)
        reason = "ticks that are due after different times, or at once"
        self.assertEqual([plainly.text for plainly in said.plainly], [f"the first Cooperator is recorded as events: {reason}"])
        script = json.loads(said.text)
        self.assertEqual((script.get("cooperator"), len(script["cooperators"])), (None, 1))


class AsEvents(RecordingCase):
    """Cooperators on a Clock that no script has by name are recorded as the delayed calls and Deferreds that they are made of."""

    #: by the words of the program, why no script has its second Cooperator by name
    REASONS = {
        "acts": "a task acts in the step in which it ends",
        "many": "ticks of different numbers of steps",
        "times": "ticks that are due after different times, or at once",
        "starts": "Cooperator.start",
        "raises": "a scheduler of a Cooperator raises an error",
    }

    def assert_as_events(self, ended: Ended, reason: str) -> None:
        """A run was recorded so, for this reason, and the program prints the same for its script."""
        self.assertEqual(ended.status, 0, ended.said)
        self.assertIn(f"further Cooperators are recorded as events: {reason}\n", ended.said)
        self.assertIn("./deferreds prints the same, line for line", ended.said)
        self.assert_goes_together("run")
        words = [event[0] for event in self.events("run")]
        self.assertEqual((words.count("cooperate"), "cooperateIn" in words, words.count("later") > 0), (1, False, True))

    def test_a_program_whose_time_is_virtual(self) -> None:
        for case, reason in self.REASONS.items():
            with self.subTest(case):
                self.assert_as_events(self.record("-f", "--virtual", "-o", "run", "cooperators_on_a_clock.py", case), reason)

    def test_a_test_with_a_clock(self) -> None:
        self.copied("cooperators_on_a_clock.py", "on_a_clock.py")
        for case, reason in self.REASONS.items():
            with self.subTest(case):
                self.assert_as_events(self.record("-f", "-o", "run", "--test", f"on_a_clock.OnAClock.test_{case}"), reason)


class Unnamed(Case):
    """What a Cooperator on a Clock does by itself, and what it refuses, where no script has it by name."""

    def events_of(self, use: Callable[[task.Clock, task.Cooperator], object]) -> List[Any]:
        """The events of a run in which a second Cooperator is used that is started after it was stopped, and time goes on then."""

        def program() -> None:
            clock = task.Clock()
            cooperator_on(clock, 1).cooperate(work(1))
            other = cooperator_on(clock, 2)
            other.coiterate(work(1)).addErrback(lambda failure: None)
            other.stop()
            other.start()
            use(clock, other)
            for _ in range(6):
                clock.advance(1)

        said = self.said_of(program)
        self.assertEqual([plainly.text for plainly in said.plainly], ["further Cooperators are recorded as events: Cooperator.start"])
        script = json.loads(said.text)
        self.assertNotIn("cooperators", script)
        return list(script["events"])

    def test_a_tick_is_cancelled_where_no_task_takes_turns(self) -> None:
        def use(clock: task.Clock, other: task.Cooperator) -> None:
            made = other.cooperate(work(2))
            made.pause()
            made.resume()

        words = [event[0] for event in self.events_of(use)]
        self.assertEqual((words.count("later"), words.count("cancelCall")), (3, 2))

    def test_a_tick_that_is_cancelled_where_it_was_scheduled(self) -> None:
        def use(clock: task.Clock, other: task.Cooperator) -> None:
            def again(failure: object) -> None:
                other.start()
                other.cooperate(work(1))

            other.cooperate(work(1)).whenDone().addErrback(again)
            clock.advance(1)
            other.stop()

        self.events_of(use)

    def test_what_a_task_refuses_is_no_action(self) -> None:
        def use(clock: task.Clock, other: task.Cooperator) -> None:
            made = other.cooperate(work(2))
            made.stop()

            def refused() -> None:
                with self.assertRaises(task.TaskStopped):
                    made.stop()

            def raises() -> None:
                made.resume()

            refused()
            clock.callLater(1, refused)
            defer.maybeDeferred(raises).addErrback(lambda failure: failure.trap(task.NotPaused) and None)

        [body] = [event[2] for event in self.events_of(use) if event[0] == "maybe"]
        self.assertEqual(body, {"end": ["raise", "NotPaused", ""]})

    def test_a_deferred_of_when_done_that_was_fired_by_hand(self) -> None:
        def use(clock: task.Clock, other: task.Cooperator) -> None:
            done = other.cooperate(work(2)).whenDone()
            done.callback(None)

            def stop() -> None:
                with self.assertRaises(defer.AlreadyCalledError):
                    other.stop()
                clock.callLater(1, work, 1)

            clock.callLater(1, stop)

        events = self.events_of(use)
        self.assertIn("try", json.dumps([event for event in events if event[0] == "later"]))

    def test_a_tick_that_the_program_runs_is_in_the_way(self) -> None:
        def program() -> None:
            clock = task.Clock()
            cooperator_on(clock, 1).cooperate(work(1))
            cooperator_on(clock, 2).cooperate(work(3))
            clock.calls[1].func()  # type: ignore[attr-defined]

        said = recorded(program)
        hindrance = "further Cooperators can't be recorded as events: a tick that the program itself runs"
        self.assertEqual([plainly.text for plainly in said.plainly], [hindrance])
        self.assertIn("cooperator", {problem.kind for problem in said.problems})

    def test_two_deferreds_hold_a_task(self) -> None:
        def use(clock: task.Clock, other: task.Cooperator) -> None:
            first: defer.Deferred[int] = defer.Deferred()
            second: defer.Deferred[int] = defer.Deferred()
            made = other.cooperate(iter([first, second, None]))
            clock.advance(2)
            made.resume()
            clock.advance(2)
            second.callback(2)
            first.callback(1)
            first.addErrback(lambda failure: failure.trap(task.NotPaused) and None)

        self.events_of(use)


class Plain(Case):
    """Cooperators that a script can't have are recorded as the Python that they are made of."""

    def plainly(self, make: Callable[[task.Clock], task.Cooperator]) -> Dict[str, Any]:
        """The script of a run in which the second Cooperator is made so."""

        def program() -> None:
            clock = task.Clock()
            cooperator_on(clock, 1).cooperate(work(2))
            made = make(clock)
            done = made.cooperate(work(2)).whenDone()
            if not made.running:
                made.start()
            for _ in range(4):
                clock.advance(1)
            self.assertTrue(done.called)

        script = self.script_of(program)
        self.assertEqual((script["cooperator"], "cooperators" in script), ({"units": 1, "delay": 1, **TWISTED}, False))
        return script

    def test_a_scheduler_that_does_something_else(self) -> None:
        script = self.plainly(lambda clock: task.Cooperator(steps_of([9]), lambda tick: clock.callLater(1, lambda: tick())))
        self.assertEqual(words_of(script)[:3], ["cooperate", "later", "deferred"])

    def test_ticks_that_are_due_at_once(self) -> None:
        self.plainly(lambda clock: task.Cooperator(steps_of([9]), lambda tick: clock.callLater(0, tick)))

    def test_one_that_is_made_unstarted(self) -> None:
        self.plainly(lambda clock: task.Cooperator(steps_of([9]), lambda tick: clock.callLater(1, tick), started=False))


if __name__ == "__main__":
    unittest.main()
