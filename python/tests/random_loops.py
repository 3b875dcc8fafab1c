"""Random programs of loops and Cooperators on a Clock, by a seed."""

from __future__ import annotations

import contextlib
import random
from typing import Any, Callable, Iterator, List

from twisted.internet import defer, task

#: how much the program does at most, so that each ends
_MOST = 60
_ADVANCES = 14


class RandomLoops:
    """A program whose loops and tasks do something else in each turn and step."""

    def __init__(self, seed: int, cooperates: bool) -> None:
        """`cooperates`: whether there are Cooperators, too."""
        self._random = random.Random(seed)
        self._clock = task.Clock()
        self._loops: List[Any] = []
        self._waiting: List[defer.Deferred[Any]] = []
        self._cooperators: List[task.Cooperator] = []
        self._left = _MOST
        self._acts: List[Callable[[], Any]] = [self._wait, self._fire, self._fail, self._stop, self._begin, self._call, self._callback]
        self._acts += [self._reset, self._start_again, self._fire_by_hand, self._stop_twice, self._raise]
        if cooperates:
            self._acts += [self._cooperate, self._cooperate, self._stop_cooperator, self._start_cooperator]

    def run(self) -> None:
        """Runs it."""
        self._begin()
        for _ in range(_ADVANCES):
            with contextlib.suppress(Exception):
                self._act()
            with contextlib.suppress(Exception):
                self._clock.advance(self._random.choice([1, 1, 2, 0.5]))

    def _act(self, *given: object) -> Any:
        if self._left == 0:
            return None
        self._left -= 1
        if self._random.random() < 0.6:
            result = self._random.choice(self._acts)()
            if isinstance(result, defer.Deferred):
                return result
        return self._random.choice([None, None, 3])

    def _loop(self) -> Any:
        return self._random.choice(self._loops)

    # what it does

    def _wait(self) -> Any:
        self._waiting.append(defer.Deferred())
        return self._waiting[-1]

    def _taken(self) -> Any:
        return self._waiting.pop(self._random.randrange(len(self._waiting))) if self._waiting else defer.Deferred()

    def _fire(self) -> None:
        self._taken().callback(self._random.choice([None, 1, [1]]))

    def _fail(self) -> None:
        self._taken().errback(ValueError("no"))

    def _raise(self) -> None:
        raise ValueError("raised")

    def _call(self) -> None:
        self._clock.callLater(self._random.choice([0, 1, 2, 3]), self._act)

    def _callback(self) -> None:
        defer.succeed(2).addCallback(self._act)

    # loops

    def _begin(self) -> None:
        if len(self._loops) > 3:
            return
        kind = self._random.random()
        if kind < 0.2:
            loop = task.LoopingCall.withCount(self._act)
        else:
            loop = task.LoopingCall(self._act if kind < 0.8 else bool)
        loop.clock = self._clock  # type: ignore[assignment]
        self._loops.append(loop)
        self._start(loop)

    def _start(self, loop: task.LoopingCall) -> None:
        ended = loop.start(self._random.choice([1, 2, 3]), self._random.random() < 0.7)
        if self._random.random() < 0.5:
            ended.addBoth(self._act)
        else:
            ended.addErrback(bool)

    def _start_again(self) -> None:
        loop = self._loop()
        if not loop.running:
            self._start(loop)

    def _stop(self) -> None:
        loop = self._loop()
        if loop.running:
            loop.stop()

    def _stop_twice(self) -> None:
        with contextlib.suppress(AssertionError):
            self._loop().stop()

    def _reset(self) -> None:
        loop = self._loop()
        if loop.running and self._random.random() < 0.3:
            loop.reset()

    def _fire_by_hand(self) -> None:
        ended = self._loop()._deferred
        if ended is not None and self._random.random() < 0.3:
            ended.cancel() if self._random.random() < 0.5 or ended.called else ended.callback(0)

    # Cooperators

    def _cooperate(self) -> None:
        if not self._cooperators or self._random.random() < 0.3:
            delays = self._random.choice([[1], [2], [1, 2]])
            schedule = lambda tick: self._clock.callLater(self._random.choice(delays), tick)  # noqa: E731
            self._cooperators.append(task.Cooperator(lambda: lambda: True, schedule))
        cooperator = self._random.choice(self._cooperators)
        if not cooperator._stopped:  # type: ignore[attr-defined]
            cooperator.cooperate(self._work(self._random.randrange(4))).whenDone().addErrback(bool)

    def _work(self, steps: int) -> Iterator[None]:
        for _ in range(steps):
            self._act()
            yield None

    def _stop_cooperator(self) -> None:
        if self._cooperators and self._random.random() < 0.3:
            self._random.choice(self._cooperators).stop()

    def _start_cooperator(self) -> None:
        cooperator = self._random.choice(self._cooperators) if self._cooperators else None
        if cooperator is not None and cooperator._stopped:  # type: ignore[attr-defined]
            cooperator.start()
