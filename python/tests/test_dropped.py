"""What a program drops: it dies under the recorder where it dies without one, and its finalizer runs there."""

from __future__ import annotations

import gc
import unittest
import weakref
from typing import Any, Callable, Dict, Generator, Iterator, List

from twisted.internet import defer, task
from twisted.internet.defer import Deferred
from twisted.python.failure import Failure

from deferreds.twisted.instruments import install
from deferreds.twisted.recording.hiding import SECRETS
from deferreds.twisted.recording.last import LastRecorder
from deferreds.twisted.recording.recorder import Recorder
from deferreds.twisted.running import be_quiet
from deferreds.twisted.telling import KINDS


class Thing:
    """Something of the program's."""

    def method(self, *args: object) -> object:
        """Takes and gives anything."""
        return None


class Marked(Exception):
    """An error of the program's."""


#: what was made, by what it is
Made = Dict[str, Any]


async def _awaiting(awaited: "Deferred[Any]", held: object) -> object:
    return await awaited


def _yielding(awaited: "Deferred[Any]", held: object) -> Generator[Any, Any, Any]:
    yield awaited


def _unfired() -> Made:
    callback, errback, canceller, argument = Thing(), Thing(), Thing(), Thing()
    deferred: Deferred[Any] = Deferred(canceller.method)
    deferred.addCallbacks(callback.method, errback.method)
    deferred.addCallback(callback.method, argument)
    deferred.addBoth(errback.method)
    return locals()


def _fired() -> Made:
    callback, value, result = Thing(), Thing(), Thing()
    deferred: Deferred[Any] = Deferred()
    deferred.addCallback(lambda given: callback and result)
    deferred.callback(value)
    return locals()


def _kept_result() -> Made:
    value = Thing()
    deferred = defer.succeed(value)
    return locals()


def _failed() -> Made:
    error = Marked("no")
    failure = Failure(error)
    deferred: Deferred[Any] = Deferred()
    deferred.addErrback(lambda failure: None)
    deferred.errback(failure)
    return locals()


def _raised() -> Made:
    made: Made = {}

    def fail(value: object) -> None:
        made["error"] = Marked("no")
        raise made["error"]

    deferred: Deferred[Any] = Deferred()
    deferred.addCallback(fail)
    deferred.addErrback(lambda failure: made.setdefault("failure", failure) and None)
    deferred.callback(None)
    return {**made, "function": fail, "deferred": deferred}


def _coroutine() -> Made:
    awaited: Deferred[Any] = Deferred()
    held = Thing()
    coroutine = _awaiting(awaited, held)
    deferred = defer.ensureDeferred(coroutine)
    return locals()


def _nested_coroutine() -> Made:
    awaited: Deferred[Any] = Deferred()
    held = Thing()
    inner = _awaiting(awaited, held)
    deferred = defer.ensureDeferred(_awaiting(defer.ensureDeferred(inner), held))
    return locals()


def _ended_coroutine() -> Made:
    awaited: Deferred[Any] = Deferred()
    held = Thing()
    coroutine = _awaiting(awaited, held)
    deferred = defer.ensureDeferred(coroutine)
    awaited.callback(held)
    return locals()


def _awaits_again() -> Made:
    first: Deferred[Any] = Deferred()
    second: Deferred[Any] = Deferred()

    async def both() -> None:
        await first
        await second

    coroutine = both()
    deferred = defer.ensureDeferred(coroutine)
    first.callback(Thing())
    return locals()


def _inline() -> Made:
    awaited: Deferred[Any] = Deferred()
    held = Thing()
    generators: List[Any] = []

    def body() -> Generator[Any, Any, Any]:
        generators.append(_yielding(awaited, held))
        return generators[0]

    deferred = defer.inlineCallbacks(body)()
    generator = generators.pop()
    return {"awaited": awaited, "held": held, "deferred": deferred, "generator": generator}


def _cancelled_coroutine() -> Made:
    awaited: Deferred[Any] = Deferred()
    held = Thing()
    coroutine = _awaiting(awaited, held)
    deferred = defer.ensureDeferred(coroutine)
    deferred.addErrback(lambda failure: None)
    deferred.cancel()
    return locals()


def _cancelled_chain() -> Made:
    inner: Deferred[Any] = Deferred(lambda deferred: None)
    outer: Deferred[Any] = Deferred()
    outer.addCallback(lambda value: inner)
    outer.addErrback(lambda failure: None)
    outer.callback(None)
    outer.cancel()
    return locals()


def _chained() -> Made:
    first: Deferred[Any] = Deferred()
    second: Deferred[Any] = Deferred()
    first.chainDeferred(second)
    return locals()


def _waits() -> Made:
    inner: Deferred[Any] = Deferred()
    outer: Deferred[Any] = Deferred()
    outer.addCallback(lambda value: inner)
    outer.callback(None)
    return locals()


def _clock() -> Made:
    clock = task.Clock()
    called, argument = Thing(), Thing()
    call: Any = clock.callLater(1, called.method, argument)
    return locals()


def _call_that_ran() -> Made:
    clock = task.Clock()
    called = Thing()
    call: Any = clock.callLater(1, called.method)
    clock.advance(1)
    return locals()


def _cancelled_call() -> Made:
    clock = task.Clock()
    called = Thing()
    call: Any = clock.callLater(1, called.method)
    call.cancel()
    return locals()


def _two_clocks() -> Made:
    clock, second = task.Clock(), task.Clock()
    first_called, called = Thing(), Thing()
    clock.callLater(1, first_called.method)
    call: Any = second.callLater(1, called.method)
    return locals()


def _timer() -> Made:
    clock = task.Clock()
    deferred: Deferred[Any] = Deferred()
    handler = Thing()
    deferred.addTimeout(3, clock, handler.method)
    return locals()


def _loop() -> Made:
    clock = task.Clock()
    called = Thing()
    loop: Any = task.LoopingCall(called.method)
    loop.clock = clock
    deferred = loop.start(1)
    clock.advance(1)
    return locals()


def _stopped_loop() -> Made:
    clock = task.Clock()
    called = Thing()
    loop: Any = task.LoopingCall(called.method)
    loop.clock = clock
    deferred = loop.start(1)
    loop.stop()
    return locals()


def _cooperator() -> Made:
    clock = task.Clock()
    cooperator = task.Cooperator(scheduler=lambda tick: clock.callLater(1, tick))
    step = Thing()

    def steps() -> Iterator[Any]:
        while True:
            yield step.method()

    iterator = steps()
    cooperative = cooperator.cooperate(iterator)
    deferred = cooperative.whenDone()
    clock.advance(1)
    return locals()


def _two_cooperators() -> Made:
    made = _cooperator()
    clock = made["clock"]
    further = task.Cooperator(scheduler=lambda tick: clock.callLater(1, tick))
    further_iterator = (None for _ in range(2))
    further_task = further.cooperate(further_iterator)
    for _ in range(4):
        clock.advance(1)
    return {**made, "further": further, "further_iterator": further_iterator, "further_task": further_task}


def _cooperator_of_a_list() -> Made:
    clock = task.Clock()
    cooperator = task.Cooperator(scheduler=lambda tick: clock.callLater(1, tick))
    item = Thing()
    cooperative = cooperator.cooperate(iter([None, item]))
    clock.advance(1)
    return locals()


def _lock() -> Made:
    lock = defer.DeferredLock()
    deferred = lock.acquire()
    waiting = lock.acquire()
    called = Thing()
    run = lock.run(called.method)
    return locals()


def _semaphore() -> Made:
    semaphore = defer.DeferredSemaphore(1)
    deferred = semaphore.acquire()
    semaphore.release()
    return locals()


def _queue() -> Made:
    queue: Any = defer.DeferredQueue()
    value = Thing()
    queue.put(value)
    other: Any = defer.DeferredQueue()
    waiting = other.get()
    return locals()


def _list() -> Made:
    child: Deferred[Any] = Deferred()
    value = Thing()
    gathered = defer.gatherResults([child, defer.succeed(value)])
    deferreds: Any = defer.DeferredList([child])
    return locals()


def _fired_list() -> Made:
    child: Deferred[Any] = Deferred()
    value = Thing()
    deferreds: Any = defer.DeferredList([child])
    child.callback(value)
    return locals()


def _maybe() -> Made:
    value = Thing()

    def function() -> object:
        return value

    deferred = defer.maybeDeferred(function)
    return locals()


def _paused() -> Made:
    deferred: Deferred[Any] = defer.succeed(None)
    callback = Thing()
    deferred.pause()
    deferred.addCallback(callback.method)
    return locals()


MAKERS: List[Callable[[], Made]] = [
    made
    for name, made in sorted(globals().items())
    if name.startswith("_") and getattr(made, "__annotations__", {}).get("return") == "Made" and not made.__code__.co_argcount
]


def dying(make: Callable[[], Made]) -> Dict[str, str]:
    """When each of what is made dies, once all is dropped."""
    refs = {}
    for name, thing in make().items():
        try:
            refs[name] = weakref.ref(thing)
        except TypeError:
            continue
    thing = None
    at_once = {name for name, ref in refs.items() if ref() is None}
    gc.collect()
    return {name: "at once" if name in at_once else "never" if ref() is not None else "when collected" for name, ref in refs.items()}


class Dropped(unittest.TestCase):
    """One object of each kind."""

    def setUp(self) -> None:
        be_quiet()
        install()
        gc.collect()
        gc.freeze()  # what is there already isn't looked through again
        gc.disable()
        self.addCleanup(gc.enable)
        self.addCleanup(gc.unfreeze)

    def assert_dies(self, recorder: Callable[[], Recorder]) -> None:
        """Each dies under a recorder of this kind as it dies without one."""
        for make in MAKERS:
            with self.subTest(make.__name__):
                bare = dying(make)
                with recorder().watching():
                    self.assertEqual(dying(make), bare)

    def test_each_dies_as_without_the_recorder(self) -> None:
        self.assert_dies(Recorder)

    def test_each_dies_if_it_is_recorded_as_what_it_is_made_of(self) -> None:
        self.assert_dies(lambda: Recorder(frozenset()))
        self.assert_dies(lambda: Recorder(frozenset({"clock"})))

    def test_each_dies_if_only_the_last_events_are_recorded(self) -> None:
        for count in (1, 3):
            self.assert_dies(lambda: LastRecorder(KINDS, SECRETS, count, lambda following: None))
