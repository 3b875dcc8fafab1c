"""The instrument of real reactors: their delayed calls, and the errors that they log.

A call that lies in many bodies of others is recorded with an empty body, and what it does is recorded as events that come right after
its `call` line: the lines are the same, and the script isn't nested too deep.

Some reactors are run by another loop, as asyncio's: they have a `callLater` of their own, which has that loop wait for the call. So
everything is scheduled by the reactor's own method, which calls the instrument. What such a reactor schedules by itself isn't recorded:
a function from `callFromThread` is an event when it runs, as on every other reactor.
"""

from __future__ import annotations

import contextlib
import functools
import os
import sys
from asyncio import base_events, events
from types import FrameType
from typing import Any, Callable, Optional

from twisted.internet import base
from twisted.logger import ILogObserver, globalLogPublisher
from zope.interface import directlyProvides

from ..telling import Action, Observer, Time, observer_of, observers_on, watched
from .clock import Delayed, Own, is_delay, own_call, run_delayed, tried
from .pace import Pace, Waiting, has_clock, is_real
from .scheduled import RUN, Unrecorded, stand_for

_later = base.ReactorBase.callLater
_turn = base.ReactorBase.runUntilCurrent
_insert = base.ReactorBase._insertNewDelayedCalls

#: in how many other bodies that of a call may lie
_MOST_NESTED = 24

#: the files of what logs, and the folder of reactors
_LOGGING = (
    os.path.join("twisted", "logger", ""),
    os.path.join("twisted", "python", "log.py"),
    os.path.join("twisted", "python", "threadable.py"),
    "contextlib.py",
)
_INTERNET = os.path.join("twisted", "internet", "")

_FOLDER = os.path.dirname(str(base.__file__))
#: the file of asyncio's reactor, which also schedules something by itself; and those of what runs reactors, beside that of all of them:
#: the reactors that have a `callLater` of their own, and asyncio's loop
_ASYNCIO = os.path.join(_FOLDER, "asyncioreactor.py")
LOOPS = frozenset(
    [_ASYNCIO, *(os.path.join(_FOLDER, f"{name}.py") for name in ("cfreactor", "_glibbase", "_threadedselect"))]
    + [base_events.__file__, events.__file__]
)


def schedule_waiting(
    watcher: Observer, reactor: Any, delay: float, waiting: Waiting, call: Callable[[], Any], given: Callable[..., Any]
) -> Any:
    """Schedules something of Twisted's own, whose line is logged. `given` is the function for which Twisted asks."""
    made = reactor.callLater(delay, _waiting_call(watcher, waiting, call, given))
    _keep_waiting(watcher, made, waiting)
    return made


def _waiting_call(watcher: Observer, waiting: Waiting, call: Callable[[], Any], given: Callable[..., Any]) -> Unrecorded:
    """What a reactor calls in the place of a function of Twisted's own."""

    def due() -> Any:
        return call() if watched.observer is not watcher else watcher.pace.run(waiting, call)

    return Unrecorded(due, given)


def _keep_waiting(watcher: Observer, call: Any, waiting: Waiting) -> None:
    """Has a delayed call be known as what waits."""
    call._dv_waiting = (watcher, waiting)


def waiting_of(watcher: Optional[Observer], call: Any) -> Optional[Waiting]:
    """What a delayed call is known as."""
    known = call._dv_waiting
    return known[1] if known is not None and known[0] is watcher else None


def _instrumented_later(self: Any, delay: float, f: Callable[..., Any], *args: Any, **kwargs: Any) -> Any:
    if type(f) is Unrecorded or _is_of_reactor(sys._getframe().f_back):
        return _later(self, delay, f, *args, **kwargs)
    if watched.is_resting and watched.observer is None:
        return _later(self, delay, _Unwatched(f), *args, **kwargs)
    watcher = observer_of("clock") if observers_on else None
    if watcher is None or not has_clock(watcher, self):
        return _later(self, delay, f, *args, **kwargs)
    if not is_delay(delay):
        watcher.problem("a delay that is no number from 0", "clock")
        return _later(self, delay, f, *args, **kwargs)
    if tried and tried[-1].takes(watcher, self, delay, f):
        return tried[-1].begin(delay, functools.partial(_instrumented_later, self, delay, f, *args, **kwargs))
    own = own_call(watcher, f) if watcher.acting else None
    if own is not None:
        return _schedule_own(watcher, self, delay, own, functools.partial(f, *args, **kwargs), f)
    if watcher.quiet:
        watcher.problem("a delayed call from inside Twisted", "clock")
        return _later(self, delay, f, *args, **kwargs)
    return _act_later(watcher, self, delay, f, args, kwargs)


def _is_of_reactor(frame: Optional[FrameType]) -> bool:
    """Whether a reactor schedules something by itself. The frame is that which has called the instrument: none, where Python has."""
    if frame is None or frame.f_code.co_filename != _ASYNCIO:
        return False
    return frame.f_back is not None and frame.f_back.f_code.co_filename == _ASYNCIO


class _Unwatched:
    """A function that is watched by nobody while it runs."""

    __slots__ = ("_f",)

    def __init__(self, f: Callable[..., Any]) -> None:
        self._f = f

    def __call__(self, *args: Any, **kwargs: Any) -> Any:
        before, watched.observer = watched.observer, None
        try:
            return self._f(*args, **kwargs)
        finally:
            watched.observer = before

    def __getattr__(self, name: str) -> Any:
        """The names of the function, by which Twisted shows it, are its own."""
        return getattr(self._f, name)


def _schedule_own(watcher: Observer, reactor: Any, delay: float, own: Own, call: Callable[[], Any], given: Callable[..., Any]) -> Any:
    """Twisted schedules something of its own."""
    pace: Pace = watcher.pace
    waiting = own.wait(pace, delay)
    own.note(waiting.delay)
    watcher.tell(*own.line, waiting.due)
    made = _later(reactor, delay, _waiting_call(watcher, waiting, call, given))
    _keep_waiting(watcher, made, waiting)
    pace.align(waiting, made)
    own.keep(made)
    return made


def _act_later(watcher: Observer, reactor: Any, delay: float, f: Callable[..., Any], args: Any, kwargs: Any) -> Any:
    """The program schedules a call."""
    pace: Pace = watcher.pace
    delayed = Delayed(watcher, Time(delay))
    is_flat = watcher.depth_of(delayed.body) > _MOST_NESTED

    def due(*args: Any, **kwargs: Any) -> Any:
        waiting, call = waiting_of(watcher, made), functools.partial(f, *args, **kwargs)
        if watched.observer is not watcher or waiting is None:
            return call()
        if is_flat:
            return _run_flat(watcher, pace, delayed, waiting, call)
        return pace.run(waiting, functools.partial(run_delayed, watcher, None, delayed, call))

    stand_for(due, f)

    def schedule_it() -> Any:
        waiting = pace.later(delay)
        delayed.action[2] = waiting.delay
        watcher.tell("later call ", delayed.thing, " ", waiting.due)
        scheduled: Any = _later(reactor, delay, due, *args, **kwargs)
        scheduled._dv_delayed = (watcher, delayed)
        _keep_waiting(watcher, scheduled, waiting)
        return scheduled

    made: Any = watcher.act(delayed.action, schedule_it)
    return made


def _run_flat(watcher: Observer, pace: Pace, delayed: Delayed, waiting: Waiting, call: Callable[[], Any]) -> Any:
    """Tells a call with an empty body, and then what it does as events."""
    pace.run(waiting, functools.partial(run_delayed, watcher, None, delayed, lambda: None))
    try:
        return call()
    except BaseException as error:
        _tell_error(watcher, pace, error)
        raise


def _tell_error(watcher: Observer, pace: Pace, error: BaseException) -> None:
    """Tells an error that the reactor logs, and that nothing has told, as that of a delayed call of its own."""
    if watcher.is_told(error):
        return
    delayed = Delayed(watcher, Time(0))

    def schedule_it() -> Waiting:
        waiting = pace.later(0)
        delayed.action[2] = waiting.delay
        watcher.tell("later call ", delayed.thing, " ", waiting.due)
        return waiting

    def fail() -> None:
        raise error

    waiting: Waiting = watcher.act(delayed.action, schedule_it)
    traceback = error.__traceback__
    with contextlib.suppress(BaseException):
        pace.run(waiting, functools.partial(run_delayed, watcher, None, delayed, fail))
    error.__traceback__ = traceback


def _observe(event: Any) -> None:
    """Something is logged: by a reactor, where a failure has left an event of a socket, or a call from a thread."""
    if not observers_on:
        return
    failure = event.get("log_failure") or event.get("failure")
    watcher = observer_of("clock")
    if failure is None or watcher is None or watcher.acting or watcher.frame is not watcher.top:
        return
    if watcher.pace is not None and _logs_of_reactor(sys._getframe(1)):
        _tell_error(watcher, watcher.pace, failure.value)


def _logs_of_reactor(frame: Optional[FrameType]) -> bool:
    """Whether what logs is a reactor, by the innermost function that isn't one of logging."""
    while frame is not None and any(part in frame.f_code.co_filename for part in _LOGGING):
        frame = frame.f_back
    if frame is None or _INTERNET not in frame.f_code.co_filename:
        return False
    return is_real(frame.f_locals.get("self")) or "reactor" in os.path.basename(frame.f_code.co_filename)


def _instrumented_turn(self: Any) -> None:
    if observers_on:
        watcher = observer_of("clock")
        if watcher is not None and has_clock(watcher, self):
            watcher.pace.begin_turn()
    try:
        _turn(self)
    finally:
        if observers_on:  # one may have come on, or have taken over
            after = observer_of("clock")
            if after is not None and after.clock is self:
                after.pace.end_turn()


def _instrumented_insert(self: Any) -> None:
    """The reactor does this right before it looks what is due, and where it asks how long it may sleep."""
    _insert(self)
    if observers_on and sys._getframe(1).f_code is RUN:
        watcher = observer_of("clock")
        if watcher is not None and watcher.clock is self:
            watcher.pace.look()


def move(watcher: Observer, call: Any, action: Action, how: Callable[[Any, float], None], seconds: float) -> None:
    """Has a call of a real reactor be due at another time, and tells that."""
    waiting = waiting_of(watcher, call)
    assert waiting is not None
    how(call, seconds)
    pace: Pace = watcher.pace
    if action[0] == "delayCall" and seconds >= 0:
        fresh = pace.delay(waiting, seconds, action)
    else:
        left = seconds if action[0] == "resetCall" else round(call.getTime() - call.seconds(), 3)
        fresh = pace.reset(waiting, max(0, left), action)
    _keep_waiting(watcher, call, fresh)
    watcher.tell("reset ", action[1], " ", fresh.due)


def install() -> None:
    """Puts the instrument into ReactorBase, and has it hear what is logged."""
    setattr(base.ReactorBase, "_dv_further", None)
    setattr(base.ReactorBase, "callLater", _instrumented_later)
    setattr(base.ReactorBase, "runUntilCurrent", _instrumented_turn)
    setattr(base.ReactorBase, "_insertNewDelayedCalls", _instrumented_insert)
    directlyProvides(_observe, ILogObserver)
    observer: Any = _observe
    globalLogPublisher.addObserver(observer)
