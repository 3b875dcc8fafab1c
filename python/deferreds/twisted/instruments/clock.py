"""The instrument of Clock, and what it shares with that of real reactors."""

from __future__ import annotations

import functools
import itertools
import math
import sys
from typing import Any, Callable, Dict, List, NamedTuple, Optional

from twisted.internet import base, task

from ..profile import Entry
from ..telling import Action, Line, Observer, Time, observer_of, observers_on, watched
from .pace import Pace, Waiting
from .scheduled import stand_for

_call_later = task.Clock.callLater
_advance = task.Clock.advance
_sort = task.Clock._sortCalls

#: the code of the function that runs what is due
_ADVANCE = _advance.__code__
#: the numbers of delayed calls, in the order in which they are scheduled
_NUMBERS = itertools.count()
#: to how many places after the point times of calls are compared, since they are floats
_DIGITS = 9

_NO_KEYWORDS: Dict[str, Any] = {}


class Own(NamedTuple):
    """Something that Twisted itself schedules: its line without the time, and how it waits on a real reactor."""

    line: Line
    #: of the pace, and of the delay in seconds
    wait: Callable[[Pace, float], Waiting]
    #: gets the delay, as it will be recorded
    note: Callable[[Time], None]
    #: gets what a Clock has scheduled
    keep: Callable[[Any], object] = lambda scheduled: None


#: finds out what it is that Twisted schedules
own_calls: List[Callable[[Observer, Callable[..., Any]], Optional[Own]]] = []
#: what is being tried, the last last: whether this clock is asked for a call of Twisted's own that isn't known as such yet
tried: List[Any] = []


def own_call(watcher: Observer, f: Callable[..., Any]) -> Optional[Own]:
    """What Twisted schedules by this function, if that is recorded."""
    return next(filter(None, (find(watcher, f) for find in own_calls)), None)


class Delayed:
    """A delayed call of the program's: its name, its body, and the action that scheduled it."""

    def __init__(self, watcher: Observer, delay: Time) -> None:
        self.thing = watcher.thing("call")
        self.body = watcher.new_body("call")
        self.action = Action(["later", self.thing, delay, self.body])


def _later(clock: task.Clock, delay: float, f: Callable[..., object], *args: Any, **kwargs: Any) -> Any:
    """Schedules a call, which is numbered."""
    call: Any = _call_later(clock, delay, f, *args, **kwargs)
    call._dv_number = next(_NUMBERS)
    return call


def due_time(watcher: Observer, delay: float) -> Time:
    """The time at which what is scheduled now is due."""
    return Time(watcher.now() + delay)


def is_delay(delay: object) -> bool:
    """Whether the language has such a delay."""
    return isinstance(delay, (int, float)) and math.isfinite(delay) and delay >= 0


def is_time(seconds: object) -> bool:
    """Whether it is a number of seconds."""
    return isinstance(seconds, (int, float)) and math.isfinite(seconds)


def schedule(clock: task.Clock, delay: float, f: Callable[[], object]) -> Any:
    """Schedules a call, of which nothing is recorded."""
    return _later(clock, delay, f)


def keep_timer(watcher: Observer, call: Any) -> None:
    """Has a call be known as a timer, which no action of the language moves or ends."""
    call._dv_timer = watcher


def refuse_timer(watcher: Optional[Observer], call: Any, name: str) -> None:
    """A call on a timer, which the language hasn't."""
    if watcher is not None and call._dv_timer is watcher and not watcher.quiet:
        watcher.problem(f"the {name} of a timer that addTimeout has set", "timer")


def delayed_of(watcher: Observer, call: Any) -> Optional[Delayed]:
    """What is known of a delayed call."""
    known = call._dv_delayed
    return known[1] if known is not None and known[0] is watcher else None


def _instrumented_later(
    self: task.Clock, delay: float, f: Callable[..., Any], *args: Any, **kwargs: Any
) -> Any:
    watcher = observer_of("clock")
    if watcher is None or not watcher.has_clock(self):
        return _later(self, delay, f, *args, **kwargs)
    if not is_delay(delay):
        watcher.problem("a delay that is no number from 0", "clock")
        return _later(self, delay, f, *args, **kwargs)
    if tried and tried[-1].takes(watcher, self, delay, f):
        return tried[-1].begin(delay, functools.partial(_instrumented_later, self, delay, f, *args, **kwargs))
    own = own_call(watcher, f) if watcher.acting else None
    if own is not None:
        own.note(Time(delay))
        watcher.tell(*own.line, due_time(watcher, delay))
        scheduled = _later(self, delay, f, *args, **kwargs)
        own.keep(scheduled)
        return scheduled
    if watcher.quiet:
        watcher.problem("a delayed call from inside Twisted", "clock")
        return _later(self, delay, f, *args, **kwargs)
    return _act_later(watcher, self, delay, f, args, kwargs)


def _act_later(
    watcher: Observer,
    clock: task.Clock,
    delay: float,
    f: Callable[..., Any],
    args: Any,
    kwargs: Any,
) -> Any:
    delayed = Delayed(watcher, Time(delay))

    def due(*args: Any, **kwargs: Any) -> Any:
        return run_delayed(watcher, clock, delayed, f, args, kwargs)

    stand_for(due, f)

    def schedule() -> Any:
        watcher.tell("later call ", delayed.thing, " ", due_time(watcher, delay))
        call: Any = _later(clock, delay, due, *args, **kwargs)
        call._dv_delayed = (watcher, delayed)
        return call

    return watcher.act(delayed.action, schedule)


def run_delayed(
    watcher: Observer,
    clock: Optional[task.Clock],
    delayed: Delayed,
    f: Callable[..., Any],
    args: Any = (),
    kwargs: Any = _NO_KEYWORDS,
) -> Any:
    """The time of a delayed call has come, on a Clock or on a real reactor."""
    if watched.observer is not watcher:
        return f(*args, **kwargs)
    if not watcher.quiet:
        watcher.problem("a delayed call that the program itself runs", "clock")
        return f(*args, **kwargs)
    perform = functools.partial(watcher.perform, delayed.body, "call", None, f, args, kwargs)
    return tell_due(watcher, clock, ("call ", delayed.thing), perform)


def tell_due(
    watcher: Observer, clock: Optional[task.Clock], line: Line, happen: Callable[[], object]
) -> object:
    """Tells that something is due, and has it happen. An error that leaves it is logged."""
    watcher.begin_event()
    watcher.tell(*line)
    try:
        return happen()
    except BaseException as error:
        watcher.tell_unhandled(error)
        if clock is not None and leaves_calls(watcher, clock):
            watcher.quirk(Entry.ERROR_LEAVES_ADVANCE)
        raise


def leaves_calls(watcher: Observer, clock: task.Clock) -> bool:
    """Whether a Clock leaves calls that are due, if one raises now."""
    # (the list isn't in order, if a call was reset)
    return not watcher.goes_on_after_errors and any(call.getTime() <= clock.seconds() for call in clock.calls)


def _instrumented_advance(self: task.Clock, amount: float) -> None:
    watcher = observer_of("clock")
    if watcher is None or watcher.quiet or not watcher.has_clock(self):
        _advance(self, amount)
        return
    if watcher.frame is not watcher.top:
        watcher.problem("time is advanced inside a body", "clock")
    if amount < 0:
        watcher.problem("time goes back", "clock")

    watcher.act(Action(["advance", Time(amount)]), _tell_advance, watcher, self, amount)


def _tell_advance(watcher: Observer, clock: task.Clock, amount: float) -> None:
    watcher.tell("advance ", Time(watcher.now() + amount))
    _advance(clock, amount)


def run_due(clock: task.Clock) -> None:
    """Runs what is due and hasn't run, since an error has left the advance, and logs no advance."""
    _advance(clock, 0)


def _instrumented_sort(self: task.Clock) -> None:
    """Clock does this where a call is scheduled, and in an advance, right before it looks what is due first."""
    _sort(self)
    if not observers_on:
        return
    watcher = observer_of("clock")
    if watcher is not None and watcher.has_reset and watcher.clock is self and sys._getframe(1).f_code is _ADVANCE:
        _compare_order(watcher, self)


def _compare_order(watcher: Observer, clock: task.Clock) -> None:
    """Notes that what runs next was scheduled after something that is due with it, as Clock has it after a reset."""
    calls: List[Any] = clock.calls
    if not calls or calls[0].getTime() > clock.seconds():
        return
    first = calls[0]
    due = round(first.getTime() - watcher.clock_base, _DIGITS)
    for other in calls:
        if round(other.getTime() - watcher.clock_base, _DIGITS) > due:
            return
        if other._dv_number < first._dv_number:
            watcher.quirk(Entry.RESET_ORDER)
            return


def install() -> None:
    """Puts the instrument into Clock."""
    setattr(task.Clock, "_dv_further", None)
    # an object whose `__dict__` is asked for is slower from then on, so these are attributes
    for name in ("_dv_delayed", "_dv_timer", "_dv_waiting"):
        setattr(base.DelayedCall, name, None)
    setattr(base.DelayedCall, "_dv_number", -1)  # of one that was scheduled before
    wrapped: Dict[str, Callable[..., Any]] = {
        "callLater": _instrumented_later,
        "advance": _instrumented_advance,
        "_sortCalls": _instrumented_sort,
    }
    for name, instrument in wrapped.items():
        setattr(task.Clock, name, instrument)
