"""The instrument of timers, which `Deferred.addTimeout` sets.

Twisted's own function is given a clock of which it asks for one call. That is the timer, and the two pairs that come
after it are recorded as pairs of Twisted's own. A timer that the language hasn't is recorded as a delayed call and two pairs
of the program's.
"""

from __future__ import annotations

import functools
from typing import Any, Callable, Optional

from twisted.internet import task
from twisted.internet.defer import Deferred

from ..telling import Action, Observer, Record, Time, observer_of, watched
from .clock import due_time, is_delay, keep_timer, schedule, tell_due
from .pace import has_clock, is_real
from .reactors import schedule_waiting

_add_timeout = Deferred.addTimeout

OnCancel = Callable[[object, float], object]


class _Timing:
    """The clock as one call of `addTimeout` sees it: what that schedules is the timer."""

    def __init__(self, watcher: Observer, record: Record, clock: Any, action: Action) -> None:
        self._watcher = watcher
        self._record = record
        self._clock = clock
        self._action = action

    def callLater(self, delay: float, f: Callable[[], None]) -> Any:
        """Tells that the timer is set, and sets it."""
        call = self._on_reactor(delay, f) if is_real(self._clock) else self._on_clock(delay, f)
        keep_timer(self._watcher, call)
        return call

    def _on_clock(self, delay: float, f: Callable[[], None]) -> Any:
        watcher, record, clock = self._watcher, self._record, self._clock
        watcher.tell("later timeout ", record, " ", due_time(watcher, delay))
        return schedule(clock, delay, lambda: _run_due(watcher, record, clock, f))

    def _on_reactor(self, delay: float, f: Callable[[], None]) -> Any:
        watcher, record = self._watcher, self._record
        waiting = watcher.pace.later(delay)
        self._action[2] = waiting.delay
        watcher.tell("later timeout ", record, " ", waiting.due)
        due = functools.partial(_run_due, watcher, record, None, f)
        return schedule_waiting(watcher, self._clock, delay, waiting, due, f)


def _run_due(
    watcher: Observer, record: Record, clock: Optional[task.Clock], f: Callable[[], None]
) -> None:
    """The time of a timer has come."""
    if watched.observer is not watcher:
        f()
        return
    if not watcher.quiet:
        watcher.problem("a timer that the program itself runs", "timer")
        f()
        return
    tell_due(watcher, clock, ("timeout ", record), f)


def _instrumented_add_timeout(
    self: Deferred[Any],
    timeout: float,
    clock: Any,
    onTimeoutCancel: Optional[OnCancel] = None,
) -> Deferred[Any]:
    watcher = observer_of("timer")
    if watcher is None or watcher.quiet or not _can_be_told(watcher, timeout, clock, onTimeoutCancel):
        return _add_timeout(self, timeout, clock, onTimeoutCancel)
    record = watcher.record(self)
    if record.hidden_of is not None:
        return _add_timeout(self, timeout, clock, onTimeoutCancel)
    action = Action(["addTimeout", record, Time(timeout)])
    handle = onTimeoutCancel
    if onTimeoutCancel is not None:
        body = watcher.new_body("callback")
        action.append(body)
        handle = _handling(watcher, record, body, onTimeoutCancel)
    timing: Any = _Timing(watcher, record, clock, action)
    given: Deferred[Any] = watcher.act(action, _add_timeout, self, timeout, timing, handle)
    return given


def _handling(watcher: Observer, record: Record, body: Any, on_cancel: OnCancel) -> OnCancel:
    """What the program does with the result of a Deferred whose time is over, as a body."""

    def handle(result: object, timeout: float) -> object:
        if observer_of("timer") is not watcher:
            return on_cancel(result, timeout)
        given = (result, record.outcome)
        returned: object = watcher.perform(body, "callback", given, on_cancel, (result, timeout))
        return returned

    return handle


def _can_be_told(
    watcher: Observer, timeout: object, clock: object, on_cancel: Optional[OnCancel]
) -> bool:
    """Whether the language has such a timer."""
    return (
        (on_cancel is None or callable(on_cancel))
        and "clock" in watcher.kinds
        and is_delay(timeout)
        and (isinstance(clock, task.Clock) or is_real(clock))
        and has_clock(watcher, clock)
    )


def install() -> None:
    """Puts the instrument into Deferred."""
    setattr(Deferred, "addTimeout", functools.wraps(_add_timeout)(_instrumented_add_timeout))
