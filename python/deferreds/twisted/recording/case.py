"""Records a test case: its `setUp`, its method, its `tearDown` and its cleanups are the program, and trial or unittest runs them.

The recorder is on where these run, and where the reactor runs while trial waits for one of them. Trial's own Deferreds, delayed
calls and turns aren't the program's. A Deferred that a part of the test gives back gets one pair more, which takes what has come:
trial is given another Deferred in its place, and told of that by it.
"""

from __future__ import annotations

import functools
import inspect
import unittest
from types import FunctionType, MethodType
from typing import Any, Callable, Dict, Optional

from twisted.internet.defer import Deferred
from twisted.python.failure import Failure
from twisted.trial.unittest import TestCase

from ..instruments import install
from ..instruments.maybe import making
from ..instruments.pace import loop_of
from ..telling import Watching, is_deferred, watched
from .hiding import SECRETS
from .programs import PrintingNotes
from .reactor import VirtualReactor, in_place_of_the_real
from .recorder import Recorder

#: the methods in the place of those that are the program, beside the test's own, which do nothing
_NO_SET_UP, _NO_TEAR_DOWN = unittest.TestCase.setUp, unittest.TestCase.tearDown

_MISSING = object()


class TestRun:
    """How a test went under the recorder."""

    def __init__(self, recorder: Recorder) -> None:
        self.recorder = recorder
        self.passed = False
        self.skipped = False
        #: the last line of why it has failed
        self.why = ""


def record_test(cls: type[unittest.TestCase], method: str, kinds: frozenset[str], virtual: bool, redact: str = SECRETS) -> TestRun:
    """Runs one test, on the real reactor or on one whose time is virtual. `redact` says what is hidden, as of a Recorder."""
    install()
    return run_test(cls, method, Recorder(kinds, redact), virtual)


def run_test(cls: type[unittest.TestCase], method: str, recorder: Recorder, virtual: bool = False) -> TestRun:
    """Runs one test under this recorder. The instruments are in."""
    run = TestRun(recorder)
    case = cls(method)
    recorded = (_OnVirtual if virtual else RecordedCase)(case, lambda: run.recorder, in_next_turn=True)
    result = unittest.TestResult()
    with recorded, PrintingNotes():
        unittest.TestSuite([case]).run(result)
    bad = result.failures + result.errors
    run.passed, run.skipped = not bad, bool(result.skipped)
    run.why = bad[0][1].strip().splitlines()[-1][:200] if bad else ""
    return run


class RecordedCase:
    """A test case, which calls its functions under a recorder while this is entered, once. What else its runner does isn't recorded."""

    def __init__(self, case: unittest.TestCase, recorder: Callable[[], Optional[Recorder]], in_next_turn: bool) -> None:
        """`recorder` gives the recorder when a part begins; where it gives none, that part isn't recorded.

        With `in_next_turn` trial gets what a part has waited for in the reactor's next turn: so each part begins as an event. Else it
        gets that at once, as without a recorder: so the next part is in the body of the pair that passes it on.
        """
        self._case = case
        self._recorder = recorder
        self._in_next_turn = in_next_turn
        #: whether its runner waits for Deferreds
        self._waits = isinstance(case, TestCase)
        #: what stood in the place of what was put into the case
        self._before: Dict[str, object] = {}
        #: whether trial waits for a Deferred of the test, and what has the recorder be on while the reactor runs
        self._awaits_reactor = False
        self._while_reactor_runs: Optional[Watching] = None

    def __enter__(self) -> None:
        case: Any = self._case
        cls, own = type(case), case.__dict__
        self._put_once(own, case._testMethodName)
        if cls.setUp is not _NO_SET_UP or "setUp" in own:
            self._put_once(own, "setUp")
        if cls.tearDown is not _NO_TEAR_DOWN or "tearDown" in own:
            self._put_once(own, "tearDown")
        before = self._before
        before["addCleanup"] = own.get("addCleanup", _MISSING)
        own["addCleanup"] = functools.partial(self._add_cleanup, case.addCleanup)
        if self._waits:
            before["_cleanUp"] = own.get("_cleanUp", _MISSING)
            own["_cleanUp"] = functools.partial(self._clean_up, case._cleanUp)
        in_thread = watched.__dict__  # one look-up of the thread's own
        self._watched_before = in_thread.get("observer"), in_thread.get("is_resting", False)
        in_thread["observer"], in_thread["is_resting"] = None, True

    def __exit__(self, *error: object) -> None:
        if self._while_reactor_runs is not None:
            self._stop_watching()
        in_thread = watched.__dict__
        in_thread["observer"], in_thread["is_resting"] = self._watched_before
        own = self._case.__dict__
        for name, before in self._before.items():
            if before is _MISSING:
                own.pop(name, None)
            else:
                own[name] = before

    def _stop_watching(self) -> None:
        """The reactor doesn't run for the test any more."""
        watching, self._while_reactor_runs = self._while_reactor_runs, None
        if watching is not None:
            watching.__exit__()

    def _put_once(self, own: Dict[str, object], name: str) -> None:
        """Puts a part in place until it is called: what the test finds there then is its own."""
        method = getattr(self._case, name)
        if _is_generator_function(method):  # trial refuses such a one, and has to see it
            return

        def once() -> Any:
            __tracebackhide__ = True
            _put_back(own, name, self._before.pop(name, _MISSING))
            return self._run(method)

        once.__name__ = str(getattr(method, "__name__", "test"))
        attributes = getattr(method, "__dict__", None)
        if attributes:
            once.__dict__.update(attributes)
        self._before[name] = own.get(name, _MISSING)
        own[name] = once

    def _add_cleanup(self, add: Callable[..., Any], f: Callable[..., Any], *args: Any, **kwargs: Any) -> Any:
        return add(self._part(f), *args, **kwargs)

    def _clean_up(self, clean_up: Callable[[Any], Any], result: Any) -> Any:
        """All parts have run, and trial looks at what they have left."""
        self._awaits_reactor = False
        self._stop_watching()
        watched.observer = None
        return clean_up(result)

    def _part(self, call: Callable[..., Any]) -> Callable[..., Any]:
        """A part of the test, as its runner calls it."""

        def perform(*args: Any, **kwargs: Any) -> Any:
            __tracebackhide__ = True
            return self._run(functools.partial(call, *args, **kwargs))

        return perform

    def _run(self, call: Callable[[], Any]) -> Any:
        __tracebackhide__ = True
        recorder = self._recorder()
        if recorder is None:
            return call()
        with recorder.watching():
            result = self._perform(call)
            if result is None or not self._waits or not is_deferred(result):
                return result
            given = _Given(recorder, result, self._in_next_turn)
            result.addBoth(given.take)
        return self._handed_over(given, recorder)

    def _perform(self, call: Callable[[], Any]) -> Any:
        __tracebackhide__ = True
        return making(call)() if self._waits else call()

    def _handed_over(self, given: "_Given", recorder: Recorder) -> Deferred[Any]:
        """What trial is given. Where that hasn't been fired, trial has the reactor run next, and the recorder is on from then on."""
        given.is_handed_over = True
        if not given.handed.called and not self._awaits_reactor:
            self._awaits_reactor = True

            def start() -> None:
                if self._awaits_reactor and self._while_reactor_runs is None:
                    self._while_reactor_runs = recorder.watching()
                    self._while_reactor_runs.__enter__()

            with AtRest():
                _call_first(start)
        return given.handed


class _OnVirtual(RecordedCase):
    """A test on a reactor whose time is virtual, which runs until what its parts give has come."""

    def __init__(self, case: unittest.TestCase, recorder: Callable[[], Optional[Recorder]], in_next_turn: bool) -> None:
        super().__init__(case, recorder, in_next_turn)
        self._reactor = VirtualReactor()

    def _perform(self, call: Callable[[], Any]) -> Any:
        with in_place_of_the_real(self._reactor):
            result = super()._perform(call)
            if isinstance(result, Deferred):
                self._reactor.run_until(lambda: bool(result.called))
            return result


class _Handed(Deferred[Any]):
    """What trial waits for in the place of a Deferred of the test."""

    def __init__(self, recorder: Recorder, own: Deferred[Any]) -> None:
        super().__init__(self._cancel_own)
        self._recorder = recorder
        self._own = own

    def _cancel_own(self, handed: Deferred[Any]) -> None:
        with self._recorder.watching():
            self._own.cancel()

    def errback(self, fail: Any = None) -> None:
        """Trial's time for the test is over: the test's own Deferred is fired. Raises AlreadyCalledError where that was."""
        with self._recorder.watching():
            self._own.errback(fail)

    def come(self, value: Any) -> None:
        """The test's own Deferred has this result. A Deferred that Twisted takes for a value can't be handed on."""
        if isinstance(value, Failure):
            super().errback(value)
        else:
            super().callback(None if value is None or isinstance(value, Deferred) else value)


class _Given:
    """What a part of a test returns, and by what its runner gets that."""

    def __init__(self, recorder: Recorder, own: Deferred[Any], in_next_turn: bool) -> None:
        self._in_next_turn = in_next_turn
        self.is_handed_over = False
        with AtRest():
            self.handed: _Handed = _Handed(recorder, own)

    def take(self, value: object) -> None:
        """It has come, or has failed."""
        if self._in_next_turn and self.is_handed_over:
            from twisted.internet import reactor as installed

            reactor: Any = installed
            type(reactor).callFromThread(reactor, self._tell, value)
        else:
            self._tell(value)

    def _tell(self, value: object) -> None:
        with AtRest():
            self.handed.come(value)


def _is_generator_function(method: Any) -> bool:
    """Whether `inspect.isgeneratorfunction` says so, which takes Python long."""
    if type(method) is MethodType and type(method.__func__) is FunctionType:
        return bool(method.__func__.__code__.co_flags & inspect.CO_GENERATOR)
    return inspect.isgeneratorfunction(method)


def _put_back(own: Dict[str, object], name: str, before: object) -> None:
    """Puts back what an object had as an attribute of its own."""
    if before is _MISSING:
        own.pop(name, None)
    else:
        own[name] = before


def _call_first(call: Callable[[], None]) -> None:
    """Has the reactor call this first when it runs: before what it was given by `callFromThread`, where that can be.

    What it starts with is a Deferred of its own, whose callbacks have run by then.
    """
    from twisted.internet import reactor as installed

    reactor: Any = installed
    loop, queue = loop_of(reactor), getattr(reactor, "threadCallQueue", None)
    if loop is not None:
        loop.call_soon(call)
    elif isinstance(queue, list):
        queue.insert(0, (call, (), {}))
        reactor.wakeUp()
    else:
        reactor.callFromThread(call)


def without_own_frames(error: Any) -> None:
    """Takes the frames of this module out of what a failure shows."""
    if isinstance(error, Failure):
        error.frames = [frame for frame in error.frames if frame[1] != __file__]


class AtRest:
    """No observer is on while this is entered, once. (It is no generator, since tests that wait enter some.)"""

    __slots__ = ("_before",)

    def __enter__(self) -> None:
        in_thread = watched.__dict__
        self._before, in_thread["observer"] = in_thread.get("observer"), None

    def __exit__(self, *error: object) -> None:
        watched.observer = self._before
