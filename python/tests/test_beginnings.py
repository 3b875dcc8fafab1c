"""A run of which a script can't say something has the script of what came before that."""

from __future__ import annotations

import gc
import json
import random
import unittest
from types import SimpleNamespace
from typing import Any, Callable, List, Tuple

from twisted.internet import defer, task
from twisted.internet.base import ReactorBase
from twisted.python.failure import Failure

from deferreds.twisted.instruments import install
from deferreds.twisted.instruments.pace import Pace
from deferreds.twisted.randoms import Scripts
from deferreds.twisted.recording.recorder import Problem, Recorder
from deferreds.twisted.recording.saying import Said
from deferreds.twisted.running import be_quiet, run

from .hostile import Program
from .test_hostile import difference, without_collector
from .test_recording import recorded

_SEED = 7
_SCRIPTS = 12

_BY_HAND = "the result of a Deferred is set by hand"


def in_the_second_event() -> None:
    """The second event can't be said."""
    defer.DeferredQueue().put(Failure(ValueError("no")))


def at_once() -> None:
    """The program does nothing else."""
    task.Clock().callLater(float("inf"), lambda: None)


def after_events() -> None:
    """Events come before it, and after it."""
    first = defer.succeed(1)
    first.addCallback(lambda value: value + 1)
    defer.succeed(2).result = 3  # type: ignore[attr-defined]
    first.addCallback(lambda value: None)


def in_a_callback() -> None:
    """It lies in the body of a callback that was added before."""
    deferred: defer.Deferred[int] = defer.Deferred()
    deferred.addCallback(lambda value: setattr(defer.succeed(value), "result", 2))
    defer.succeed(1)
    deferred.callback(1)


def a_value_in_a_callback() -> None:
    """It is what a callback uses that was added before."""
    queue: defer.DeferredQueue[Any] = defer.DeferredQueue()
    deferred: defer.Deferred[int] = defer.Deferred()
    deferred.addCallback(lambda value: queue.put(Failure(ValueError("no"))))
    defer.succeed(1)
    deferred.callback(1)


def a_value_in_an_inline_body() -> None:
    """It is what an inline body uses that began before, and awaits twice."""
    waits: List[defer.Deferred[int]] = [defer.Deferred(), defer.Deferred()]

    @defer.inlineCallbacks
    def body() -> Any:
        for one in waits:
            yield one
        defer.DeferredQueue().put(Failure(ValueError("no")))

    body()
    waits[0].callback(1)
    defer.succeed(0)
    waits[1].callback(2)


def in_an_inline_body() -> None:
    """It lies in an inline body that began before, and awaits twice."""
    waits: List[defer.Deferred[int]] = [defer.Deferred(), defer.Deferred()]

    @defer.inlineCallbacks
    def body() -> Any:
        for one in waits:
            yield one
        defer.succeed(1).result = 2

    body()
    waits[0].callback(1)
    defer.succeed(0)
    waits[1].callback(2)


def in_a_coroutine_that_is_caught() -> None:
    """What is awaited fails after that, which is caught."""
    waits: List[defer.Deferred[int]] = [defer.Deferred(), defer.Deferred()]

    async def body() -> None:
        await waits[0]
        try:
            await waits[1]
        except ValueError:
            defer.succeed(1).result = 2  # type: ignore[attr-defined]

    defer.ensureDeferred(body())
    waits[0].callback(1)
    waits[1].errback(ValueError("no"))


#: programs, of how many events the script is, of how many that ran, and why
PROGRAMS: Tuple[Tuple[Callable[[], None], int, int, str], ...] = (
    (at_once, 0, 0, "a delay that is no number from 0"),
    (in_the_second_event, 1, 2, "a Failure is a value"),
    (after_events, 5, 6, _BY_HAND),
    (in_a_callback, 4, 5, _BY_HAND),
    (a_value_in_a_callback, 4, 5, "a Failure is a value"),
    (a_value_in_an_inline_body, 6, 7, "a Failure is a value"),
    (in_an_inline_body, 6, 7, _BY_HAND),
    (in_a_coroutine_that_is_caught, 4, 5, _BY_HAND),
)


class Beginnings(unittest.TestCase):
    """Which events the script has, which prints what Twisted did in these."""

    def test_of_each_program(self) -> None:
        for program, events, all_events, reason in PROGRAMS:
            with self.subTest(program=program.__name__):
                said = recorded(program)
                found = (0 if said.script is None else said.events, len(said.actions), said.refusals[0].reason)
                self.assertEqual(found, (events, all_events, reason))
                self.assertEqual(said.is_cut, events > 0)
                if said.is_cut:
                    self.assertFalse(said.is_whole)
                    self.assertEqual(run(said.text.encode()).output, said.output)

    def test_random_programs_that_are_cut_at_random_events(self) -> None:
        be_quiet()
        install()
        gc.collect()
        gc.freeze()
        self.addCleanup(gc.collect)
        self.addCleanup(gc.unfreeze)
        for level in ("core", "lists", "locks", "inline"):
            for number in range(_SCRIPTS):
                with self.subTest(level=level, number=number):
                    said = self.cut(level, number)
                    self.assertEqual(said.script is None, not said.is_cut)
                    if said.script is not None:
                        self.assertIsNone(difference(said))

    def cut(self, level: str, number: int) -> Said:
        recorder = Recorder()
        with without_collector(), recorder.watching():
            Program(f"{_SEED} {number}").run(json.loads(Scripts(_SEED, level).script(number))["events"])
        ended = random.Random(number).randrange(len(recorder.events) + 1)
        recorder.problems.append(Problem("said here", "", None, ended))
        return Said(recorder)

    def test_many_problems_are_passed_by_in_few_steps(self) -> None:
        def program() -> None:
            queue: defer.DeferredQueue[Any] = defer.DeferredQueue()
            waits: List[defer.Deferred[None]] = [defer.Deferred() for _ in range(30)]
            for wait in waits:
                wait.addCallback(lambda _: queue.put(Failure(ValueError("no"))))
            for wait in reversed(waits):
                wait.callback(None)

        said = recorded(program)
        self.assertLess(len(said.problems), 25)
        self.assertTrue(said.is_cut)
        self.assertEqual(run(said.text.encode()).output, said.output)


class _Reactor:
    """A reactor of which only the time is asked for."""

    callLater = ReactorBase.callLater
    now = 0.0

    def seconds(self) -> float:
        """What time it is."""
        return self.now


class Times(unittest.TestCase):
    """No times give the order of a run on a real reactor."""

    def test_the_beginning_that_has_times_is_said(self) -> None:
        reactor = _Reactor()
        recorder = Recorder()
        recorder.use_clock(reactor)
        pace = recorder.pace = Pace(recorder, reactor)
        with recorder.watching():
            call = pace.later(0.005)
            waiting = [self.turn(pace, interval) for interval in (0.02, 0.01)]
            for entry, now in ((call, 0.005), (waiting[0], 0.02), (waiting[1], 0.02)):
                reactor.now = now
                pace.begin_turn()
                pace.run(entry, lambda: None)
        said = Said(recorder)
        self.assertEqual((said.is_cut, said.events, len(said.actions)), (True, 1, 3))
        self.assertEqual([problem.kind for problem in said.refusals], ["loop"])
        self.assertEqual((said.tick, said.journal[:1]), ("1 ms", ["advance 5"]))

    def turn(self, pace: Pace, interval: float) -> Any:
        loop = pace.start_loop(round(interval * 1_000_000))
        return pace.turn(loop, SimpleNamespace(starttime=0.0, interval=interval), interval)
