"""Programs whose bodies lie so deep in others that their scripts declare some by name, and whose ticks differ."""

from __future__ import annotations

import json
import unittest
from typing import Any, Callable, Dict, List

from twisted.internet import defer, task

from deferreds.twisted.instruments.tasks import Tick
from deferreds.twisted.recording.saying import Said
from deferreds.twisted.recording.ticking import Uneven, changes_of
from deferreds.twisted.running import run
from deferreds.twisted.telling import Action

from .test_recording import recorded


class Case(unittest.TestCase):
    """Programs that a script can say."""

    def said_of(self, program: Callable[[], object]) -> Said:
        """A run of the program, whose script prints its journal on real Twisted, line for line."""
        said = recorded(program)
        self.assertEqual(said.problems, [])
        self.assertTrue(said.is_whole)
        self.assertEqual(run(said.text.encode()).output, said.output)
        return said

    def script_of(self, program: Callable[[], object]) -> Dict[str, Any]:
        """The script of the program."""
        script: Dict[str, Any] = json.loads(self.said_of(program).text)
        return script


def beats(count: int) -> Callable[[], None]:
    """A delayed call that schedules itself again, until it has run so often."""

    def program() -> None:
        clock = task.Clock()
        left = [count]

        def beat() -> None:
            left[0] -= 1
            if left[0]:
                clock.callLater(1, beat)

        clock.callLater(1, beat)
        while clock.calls:
            clock.advance(1)

    return program


class Declared(Case):
    """Bodies that lie too deep."""

    def test_no_body_is_declared_that_needs_no_name(self) -> None:
        script = self.script_of(beats(40))
        self.assertEqual((script["version"], "bodies" in script), (1, False))

    def test_each_run_of_a_declared_body_has_a_line(self) -> None:
        said = self.said_of(beats(1_000))
        script = json.loads(said.text)
        names = [name for name, _ in script["bodies"]]
        self.assertEqual(script["version"], 3)
        self.assertLessEqual(len(names), 1_000 // 25)
        self.assertEqual([line for line in said.journal if line.startswith("body ")], [f"body {name}" for name in reversed(names)])
        for name in names:
            before = said.journal[said.journal.index(f"body {name}") - 1]
            self.assertTrue(before.startswith("call "), before)

    def test_a_callback_that_adds_itself(self) -> None:
        def program() -> None:
            left = [1_000]
            waiting: List[defer.Deferred[Any]] = []

            def read(value: object) -> None:
                left[0] -= 1
                if left[0]:
                    waiting.append(defer.Deferred().addCallback(read))

            defer.succeed(None).addCallback(read)
            while waiting:
                waiting.pop().callback(None)

        self.assertIn("bodies", self.script_of(program))

    def test_cancellers_steps_turns_and_bodies_with_a_token_in_each_other(self) -> None:
        def program() -> None:
            clock = task.Clock()
            lock = defer.DeferredLock()
            cooperator = task.Cooperator(scheduler=lambda tick: clock.callLater(1, tick))

            def again(left: int) -> object:
                if left == 0:
                    return None
                kind = left % 5
                if kind == 0:
                    defer.Deferred(lambda _: again(left - 1)).cancel()
                elif kind == 1:
                    cooperator.cooperate(again(left - 1) for _ in range(1))
                elif kind == 2:
                    loop = task.LoopingCall(lambda: (again(left - 1), loop.stop()) and None)
                    loop.clock = clock  # type: ignore[assignment]
                    loop.start(1, now=False)
                elif kind == 3:
                    lock.run(again, left - 1)
                else:
                    defer.maybeDeferred(again, left - 1)
                return None

            again(120)
            for _ in range(200):
                clock.advance(1)

        said = self.said_of(program)
        kinds = {said.journal[place - 1].split()[0] for place, line in enumerate(said.journal) if line.startswith("body ")}
        self.assertGreaterEqual(len(kinds), 3)

    def test_inline_bodies_in_each_other_are_called_by_helpers(self) -> None:
        @defer.inlineCallbacks
        def descend(left: int, last: defer.Deferred[Any]) -> Any:
            yield descend(left - 1, last) if left else last

        def program() -> None:
            last: defer.Deferred[int] = defer.Deferred()
            descend(70, last)
            last.callback(1)

        said = self.said_of(program)
        helpers = [line.split()[1] for line in said.journal if " nested:" in line]
        self.assertTrue(helpers)
        for number in helpers:
            self.assertIn(f"fire {number} ok null", said.journal)
            self.assertTrue(any(line.startswith(f"{number} nested:") and line.endswith("ok null") for line in said.outcomes))

    def test_turns_that_nest_as_deep_have_the_names_of_the_first(self) -> None:
        @defer.inlineCallbacks
        def descend(left: int, last: defer.Deferred[Any]) -> Any:
            yield descend(left - 1, last) if left else last

        def program() -> None:
            clock = task.Clock()
            last: List[defer.Deferred[Any]] = []

            def turn() -> None:
                last.append(defer.Deferred())
                descend(60, last[-1])
                last[-1].callback(None)

            loop = task.LoopingCall(turn)
            loop.clock = clock  # type: ignore[assignment]
            loop.start(1)
            clock.advance(1)
            clock.advance(1)

        said = self.said_of(program)
        lines = [line for line in said.journal if line.startswith("body ")]
        self.assertEqual(lines, lines[: len(lines) // 3] * 3)

    def test_failures_that_bodies_catch_as_deep(self) -> None:
        def program() -> None:
            fired = defer.succeed(1)
            left = [100]
            waiting: List[defer.Deferred[Any]] = []

            def again(value: object) -> None:
                left[0] -= 1
                if left[0]:
                    waiting.append(defer.Deferred().addCallback(again))
                try:
                    fired.callback(2)
                except defer.AlreadyCalledError:
                    pass

            defer.succeed(None).addCallback(again)
            while waiting:
                waiting.pop().callback(None)

        self.said_of(program)

    def test_where_actions_of_declared_bodies_ran(self) -> None:
        said = self.said_of(beats(60))
        places = json.loads(said.places or "{}")["actions"]
        inside = [pointer for pointer in places if pointer.startswith("/bodies/0/1/do/0")]
        self.assertTrue(inside)

    def test_a_run_that_needs_more_names_than_there_are_is_cut(self) -> None:
        said = recorded(beats(9_000))
        self.assertEqual([problem.reason for problem in said.problems], ["the script needs more names of bodies than one may have"])
        script = json.loads(said.text)
        self.assertEqual((said.is_whole, len(script["bodies"])), (False, 256))
        self.assertEqual(said.events, len(script["events"]))
        self.assertEqual(run(said.text.encode()).output, said.output)
        self.assertEqual(sum(line.startswith("call ") for line in said.whole_output.splitlines()), 9_000)


class Ticks(Case):
    """Ticks of different numbers of steps."""

    def test_each_change_is_an_event_before_the_advance(self) -> None:
        units = [2]

        class Over:
            def __init__(self) -> None:
                self.left = units[0]

            def __call__(self) -> bool:
                self.left -= 1
                return self.left <= 0

        def program() -> None:
            clock = task.Clock()
            cooperator = task.Cooperator(terminationPredicateFactory=Over, scheduler=lambda tick: clock.callLater(1, tick))
            cooperator.cooperate(iter([None] * 12))
            for units[0] in (2, 2, 3, 1, 1, 9):
                clock.advance(1)

        said = self.said_of(program)
        script = json.loads(said.text)
        words = [event[0] if event[0] != "units" else event[1] for event in script["events"]]
        self.assertEqual((script["version"], script["cooperator"]["units"]), (3, 2))
        self.assertEqual(words, ["cooperate", "advance", "advance", 3, "advance", 1, "advance", "advance", 1_000, "advance"])
        begun = [said.journal[line].split(" ")[0] for line in said.begins]
        self.assertEqual(begun, ["task", *("units" if type(word) is int else word for word in words[1:])])

    def test_the_numbers_of_ticks(self) -> None:
        one, other = Action(["advance", 1]), Action(["advance", 2])
        for ticks, expected in (
            ([], []),
            ([Tick(3, False, one)], [1_000]),
            ([Tick(2, True, one), Tick(1, False, other)], [2]),
            ([Tick(1, False, one), Tick(2, True, other)], [2]),
            ([Tick(3, False, one), Tick(2, True, other)], [1_000, 2]),
            ([Tick(2, True, one), Tick(3, True, other)], [2, 3]),
        ):
            with self.subTest(ticks=ticks):
                self.assertEqual([change.units for change in changes_of(ticks)], expected)
        for ticks in ([Tick(1_001, True, one)], [Tick(2, True, one), Tick(3, True, one)], [Tick(0, True, one)]):
            with self.subTest(ticks=ticks), self.assertRaises(Uneven):
                changes_of(ticks)


class Large(Case):
    """Scripts that are larger than one of the first version may be."""

    def version_of(self, count: int, value: object) -> int:
        """The version of a script that fires so many Deferreds with this value."""
        return int(self.script_of(lambda: [defer.succeed(value) for _ in range(count)])["version"])

    def test_the_version_is_the_least_that_has_its_size(self) -> None:
        for count, value, version in (
            (300, [0] * 190, 1),
            (350, ["A" * 20] * 30, 3),  # the weight of its journal
            (340, [0] * 190, 3),  # its nodes
            (1_000, ["\x01" * 180], 3),  # its bytes
        ):
            with self.subTest(count=count):
                self.assertEqual(self.version_of(count, value), version)


if __name__ == "__main__":
    unittest.main()
