"""Loops whose turns differ: each has a body of its own. Loops and first Cooperators that no script has as such are recorded as what they
are made of, without being asked for."""

from __future__ import annotations

import importlib.util
import itertools
import json
import unittest
import unittest.mock
from typing import Any, Dict, Iterator, List

from twisted.internet import defer, task
from twisted.python.failure import Failure

from deferreds.twisted.recording import saying
from deferreds.twisted.running import run
from deferreds.twisted.telling import KINDS

from .random_loops import RandomLoops
from .recording_of import PROGRAMS, Ended, RecordingCase
from .test_declared import Case
from .test_real_reactor import Recording, ours
from .test_recording import recorded

_AGAIN = "a loop that is started again while a turn of it waits or goes on"
_ACTS = "a task acts in the step in which it ends"

#: the words of `loops_that_differ` whose turns have bodies of their own
DIFFER = ("counts", "stops", "once", "raises", "waits", "many", "beside")
#: by the other words, why a script can't say its loops as such
REASONS = {
    "by_hand": "Twisted does what docs/TWISTED.md says of loop-fired-by-hand",
    "resets": "LoopingCall.reset",
    "again": _AGAIN,
}


def said_of_loops(reason: str) -> str:
    """The line that says so."""
    return f"loops are recorded as delayed calls: {reason}\n"


def turns_in(value: Any) -> List[int]:
    """How many bodies each loop has in a part of a script, if its turns have bodies of their own."""
    if not isinstance(value, (list, dict)):
        return []
    parts = value.values() if isinstance(value, dict) else value
    own = [len(value[-1])] if isinstance(value, list) and value[:1] == ["loop"] and isinstance(value[-1], list) else []
    return own + [count for part in parts for count in turns_in(part)]


def words_of(said: str) -> List[str]:
    """The words of the events of a script."""
    return [event[0] for event in json.loads(said)["events"]]


class OfAProgram(RecordingCase):
    """The loops of a program whose time is virtual, of one on the real reactor, and of tests."""

    def assert_as_calls(self, ended: Ended, case: str) -> None:
        """The loop that a script has is a loop, and the others are delayed calls."""
        self.assertEqual(ended.status, 0, ended.said)
        self.assertIn(said_of_loops(REASONS[case]), ended.said)
        self.assertIn("./deferreds prints the same, line for line", ended.said)
        self.assert_goes_together("run")
        words = [event[0] for event in self.events("run")]
        self.assertEqual((words.count("loop"), '"maybe"' in self.text("run.json")), (1, True))

    def assert_as_turns(self, ended: Ended, case: str) -> None:
        """All loops are loops, and in one of them each turn has its own body."""
        self.assertEqual(ended.status, 0, ended.said)
        self.assertNotIn("loops are recorded", ended.said)
        self.assertIn("./deferreds prints the same, line for line", ended.said)
        self.assert_goes_together("run")
        self.assertGreater(len(turns_in(self.events("run"))), 0)
        if case == "beside":
            self.assertIn(f"the first Cooperator is recorded as events: {_ACTS}\n", ended.said)
            self.assertNotIn("cooperate", [event[0] for event in self.events("run")])

    def test_virtual_time(self) -> None:
        for case in (*REASONS, *DIFFER):
            with self.subTest(case):
                ended = self.record("-f", "--virtual", "-o", "run", "loops_that_differ.py", case)
                (self.assert_as_calls if case in REASONS else self.assert_as_turns)(ended, case)

    def test_a_real_reactor(self) -> None:
        for case in (*REASONS, *DIFFER):
            with self.subTest(case):
                recording = Recording(f"loops_that_differ {case}")
                self.assertEqual(recording.status, 0, recording.said)
                if case in REASONS:
                    self.assertIn(said_of_loops(REASONS[case]), recording.said)
                else:
                    self.assertGreater(len(turns_in(recording.events)), 0)
                self.assertEqual(ours().answer(recording.script).output, recording.journal)
                self.assertEqual([line for line in recording.lines if line.split(" ")[0] in ("step", "tick", "hold")], [])

    def test_tests(self) -> None:
        self.copied("loops_that_differ.py", "differ.py")
        for case in (*REASONS, *DIFFER):
            with self.subTest(case):
                ended = self.record("-f", "-o", "run", "--test", f"differ.OnAClock.test_{case}")
                (self.assert_as_calls if case in REASONS else self.assert_as_turns)(ended, case)

    def test_a_loop_that_goes_on_for_ever(self) -> None:
        recording = Recording("loop_that_goes_on")
        self.assertEqual(recording.status, 0, recording.said)
        self.assertEqual(ours().answer(recording.script).output, recording.journal)
        self.assertEqual(recording.lines.count('note "turn 299"'), 1)
        self.assertNotIn('"bodies"', recording.script)
        self.assertLess(max(map(_depth, recording.events)), 12)

    def test_a_loop_that_asks_a_thread(self) -> None:
        recording = Recording("loop_that_asks_a_thread")
        self.assertEqual(recording.status, 0, recording.said)
        self.assertGreater(len(turns_in(recording.events)), 0)
        self.assertEqual(ours().answer(recording.script).output, recording.journal)
        self.assertIn('note "answer 16"', recording.lines)

    def test_the_last_events(self) -> None:
        recording = Recording("loop_that_goes_on", "--last", "200")
        self.assertEqual(recording.status, 0, recording.said)
        self.assertEqual(ours().answer(recording.script).output, recording.journal)


def _depth(value: Any) -> int:
    """How deep arrays and objects lie in each other."""
    parts = value.values() if isinstance(value, dict) else value if isinstance(value, list) else ()
    return 1 + max(map(_depth, parts), default=0)


class OnAClock(Case):
    """Loops on a Clock."""

    def program(self, case: str) -> None:
        """Runs a case of `loops_that_differ` on a Clock."""
        found = importlib.util.spec_from_file_location("differ", PROGRAMS / "loops_that_differ.py")
        assert found is not None and found.loader is not None
        module = importlib.util.module_from_spec(found)
        found.loader.exec_module(module)
        clock = task.Clock()
        getattr(module, case)(clock)
        clock.pump([module.PART / 2] * 70)

    def test_they_are_recorded_as_if_nobody_knew_loops(self) -> None:
        for case in ("resets", "again"):
            with self.subTest(case):
                said = recorded(lambda case=case: self.program(case))  # type: ignore[misc]
                plain = recorded(lambda case=case: self.program(case), KINDS - {"loop"})  # type: ignore[misc]
                self.assertEqual((said.problems, plain.problems), ([], []))
                self.assertEqual(_unnamed(said.text), _unnamed(plain.text))

    def test_each_turn_has_its_body_and_those_at_the_end_that_are_the_same_have_one(self) -> None:
        def program() -> None:
            clock = task.Clock()
            for values in ([1] * 9, [1, 2] * 9, [1, 2, 3, 3, 3]):
                loop = task.LoopingCall(iter(values).__next__)
                loop.clock = clock  # type: ignore[assignment]
                loop.start(1)
            clock.pump([1] * 4)

        one, two, three, four = ({"end": ["return", value]} for value in (1, 2, 3, 4))
        events = json.loads(self.said_of(program).text)["events"]
        self.assertEqual([event[-1] for event in events if event[0] == "loop"], [one, [one, two, one, two, one], [one, two, three]])

    def test_the_least_version_that_says_it(self) -> None:
        def program(values: List[int]) -> None:
            clock = task.Clock()
            loop = task.LoopingCall(iter(values).__next__)
            loop.clock = clock  # type: ignore[assignment]
            loop.start(1)
            clock.advance(1)

        versions = [json.loads(self.said_of(lambda values=values: program(values)).text)["version"] for values in ([1, 1], [1, 2])]
        self.assertEqual(versions, [1, 3])

    def test_a_turn_that_no_script_can_say_ends_the_script_before_it(self) -> None:
        def program() -> None:
            clock = task.Clock()
            queue: defer.DeferredQueue[Any] = defer.DeferredQueue()
            values = iter([1, 2, Failure(ValueError("no")), 3])
            loop = task.LoopingCall(lambda: queue.put(next(values)))
            loop.clock = clock  # type: ignore[assignment]
            loop.start(1)
            clock.pump([1] * 3)

        said = recorded(program)
        self.assertEqual([problem.reason for problem in said.problems], ["a Failure is a value"])
        self.assertEqual(words_of(said.text), ["loop", "advance"])
        self.assertEqual(turns_in(json.loads(said.text)), [2])
        self.assertEqual(run(said.text.encode()).output, said.output)

    def test_a_script_that_would_be_too_large_has_as_many_turns_as_fit(self) -> None:
        def program() -> None:
            clock = task.Clock()
            values = itertools.count()
            loop = task.LoopingCall(values.__next__)
            loop.clock = clock  # type: ignore[assignment]
            loop.start(1)
            clock.pump([1] * 400)

        with unittest.mock.patch.object(saying, "_MOST_BYTES", 12_000):
            said = recorded(program)
        self.assertEqual([problem.reason for problem in said.problems], ["the script is longer than one may be"])
        self.assertEqual(run(said.text.encode()).output, said.output)
        self.assertLess(len(said.text), 12_000)
        self.assertGreater(len(said.text), 10_000)

    def test_a_loop_whose_turns_use_different_loops(self) -> None:
        def program() -> None:
            clock = task.Clock()
            others = [task.LoopingCall(bool) for _ in range(2)]
            for other in others:
                other.clock = clock  # type: ignore[assignment]
                other.start(3)
            loop = task.LoopingCall(lambda: others and others.pop().stop())
            loop.clock = clock  # type: ignore[assignment]
            loop.start(1)
            clock.pump([1] * 4)

        said = self.said_of(program)
        self.assertEqual(said.plainly, [])
        self.assertEqual((words_of(said.text).count("loop"), turns_in(json.loads(said.text))), (3, [3]))

    def test_a_turn_at_a_time_that_floats_have_changed(self) -> None:
        def program() -> None:
            clock = task.Clock()
            loop = task.LoopingCall(bool)
            loop.clock = clock  # type: ignore[assignment]
            loop.start(0.1)
            clock.pump([0.1] * 40)

        said = self.said_of(program)
        self.assertEqual([plainly.what for plainly in said.plainly], ["loops"])

    def test_random_programs(self) -> None:
        plain = turns = 0
        for seed in range(160):
            with self.subTest(seed):
                said = recorded(RandomLoops(seed, seed % 2 == 1).run)
                self.assertEqual(said.problems, [])
                answer = run(said.text.encode()).output
                if answer != said.output:
                    lines = zip(answer.split("\n"), said.output.split("\n"))
                    first = next(place for place, (one, two) in enumerate(lines) if one != two)
                    self.assertTrue(any(place <= first for place, _ in said.quirks))
                plain += bool(said.plainly)
                turns += bool(turns_in(json.loads(said.text)))
        self.assertGreater(plain, 40)
        self.assertGreater(turns, 80)


def _unnamed(text: str) -> List[Any]:
    """The events of a script, in which all objects are called the same."""

    def without(value: Any) -> Any:
        if isinstance(value, list):
            return [without(item) for item in value]
        if isinstance(value, dict):
            return {key: without(item) for key, item in value.items() if (key, item) != ("end", ["return", None])}
        return "" if isinstance(value, str) and ("_" in value or "<" in value) else value

    events: Dict[str, Any] = json.loads(text)
    return list(map(without, events["events"]))


class OfACooperator(Case):
    """The first Cooperator of a run."""

    def test_on_a_clock(self) -> None:
        def program() -> None:
            clock = task.Clock()
            cooperator = task.Cooperator(lambda: lambda: True, lambda tick: clock.callLater(1, tick))
            over: defer.Deferred[str] = defer.Deferred()

            def work() -> Iterator[None]:
                yield None
                over.callback("the last step")

            cooperator.cooperate(work()).whenDone().addCallback(lambda _: None)
            clock.pump([1] * 3)

        said = self.said_of(program)
        self.assertEqual([plainly.text for plainly in said.plainly], [f"the first Cooperator is recorded as events: {_ACTS}"])
        self.assertEqual(words_of(said.text), ["deferred", "later", "deferred", "addCallback", "advance", "advance", "advance"])

    def test_what_an_entry_names_is_no_difference(self) -> None:
        def program() -> None:
            clock = task.Clock()
            cooperator = task.Cooperator(lambda: lambda: True, lambda tick: clock.callLater(1, tick))

            made = cooperator.cooperate(iter([None, None]))
            made.whenDone().callback(None)
            with self.assertRaises(defer.AlreadyCalledError):
                made.stop()

        said = self.said_of(program)
        [plainly] = said.plainly
        why = "Twisted does what docs/TWISTED.md says of refused-when-done"
        self.assertEqual(plainly.text, f"the first Cooperator is recorded as events: {why}")
        self.assertEqual(said.quirks, [])
        self.assertEqual(ours().answer(said.text).output, said.output)

    def test_turns_are_those_of_twisted(self) -> None:
        def program() -> None:
            clock = task.Clock()
            cooperator = task.Cooperator(lambda: lambda: True, lambda tick: clock.callLater(1, tick))

            def more(_: object) -> None:
                cooperator.cooperate(iter([None, None]))

            for steps in (1, 3, 3):
                cooperator.cooperate(iter([None] * steps)).whenDone().addCallback(more)
            clock.pump([1] * 9)

        said = self.said_of(program)
        self.assertEqual((said.plainly, said.quirks), ([], []))
        self.assertEqual(ours().answer(said.text).output, said.output)

    def test_a_loop_that_was_fired_by_hand(self) -> None:
        def program() -> None:
            clock = task.Clock()
            loop = task.LoopingCall(lambda: loop.stop())
            loop.clock = clock  # type: ignore[assignment]
            ended = loop.start(1, now=False)
            ended.callback(None)
            clock.advance(1)

        said = self.said_of(program)
        self.assertEqual(([plainly.what for plainly in said.plainly], said.quirks), (["loops"], []))
        self.assertEqual(ours().answer(said.text).output, said.output)

    def test_one_that_the_clock_does_not_schedule_is_refused(self) -> None:
        def program() -> None:
            ticks: List[Any] = []
            cooperator = task.Cooperator(lambda: lambda: True, ticks.append)
            cooperator.cooperate(iter([None]))
            task.Clock().callLater(1, bool)
            ticks.pop()()

        said = recorded(program)
        self.assertEqual({problem.kind for problem in said.problems}, {"cooperator"})
        self.assertRegex(said.plainly[0].text, "^the first Cooperator can't be recorded as events: ")


if __name__ == "__main__":
    unittest.main()
