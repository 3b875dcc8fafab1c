"""The instrument of LoopingCall.

It also notes what a loop does by itself (`inner`). If a script can't say it as a loop, the run is recorded without it
(`deferreds.twisted.recording.hindsight`).
"""

from __future__ import annotations

import functools
import math
import weakref
from typing import Any, Callable, List, Optional

from twisted.internet import task
from twisted.internet.defer import Deferred

from ..classes import set_message
from ..profile import Entry
from ..telling import Action, Observer, Record, Thing, Time, observer_of
from .clock import Own, is_delay, own_calls
from .deferreds import PairArguments, add_own_pair, add_silently, special_callbacks, special_pairs
from .inner import Inner, OwnCall
from .pace import Waiting, has_clock, is_real, seconds_of
from .settling import Loop

_start = task.LoopingCall.start
_stop = task.LoopingCall.stop
_call = task.LoopingCall.__call__
_reset = task.LoopingCall.reset

#: how many parts there are in the line that a Deferred gets a name
_PARTS_OF_NAME = 5
#: what part of an interval counts as none
_NEARLY = 1e-6


class Known:
    """What is known of a LoopingCall that was started: its name, the body of its turns, and the loop on a real reactor."""

    def __init__(self, thing: Thing, body: Any, inner: Optional[Inner], before: Optional[Known]) -> None:
        """`before`: the same loop before it was started again, while a turn was scheduled or went on."""
        self.thing = thing
        self.body = body
        self.loop: Optional[Loop] = None
        #: where it is noted what it does by itself, and its turns that are scheduled
        self.inner = inner
        self.calls: List[OwnCall] = [] if before is None else before.calls

    def keep(self, scheduled: Any) -> None:
        """The clock has scheduled a turn."""
        if self.calls:
            self.calls[-1].scheduled = weakref.ref(scheduled)


def _known(watcher: Optional[Observer], loop: object) -> Optional[Known]:
    """What is known of a LoopingCall, if it is recorded as a loop."""
    found = getattr(loop, "_dv_loop") if isinstance(loop, task.LoopingCall) else None
    return found[1] if found is not None and found[0] is watcher else None


def _instrumented_start(self: task.LoopingCall, interval: float, now: bool = True) -> Any:
    watcher = observer_of("loop")
    if watcher is None or watcher.quiet or self.running or not _can_be_told(watcher, self, interval):
        if watcher is not None and not watcher.quiet and not self.running:
            setattr(self, "_dv_loop", None)
        return _start(self, interval, now)
    return _act_start(watcher, self, interval, now)


def _act_start(
    watcher: Observer, loop: task.LoopingCall, interval: float, now: bool
) -> Any:
    before = _unfinished(watcher, loop)
    inner = before.inner if before is not None else Inner("loop", watcher.spot()) if watcher.notes_inner else None
    thing, body = watcher.thing("loop"), watcher.new_body("turn", inner is not None)
    thing.inner = inner
    known = Known(thing, body, inner, before)
    watcher.texts.bind(loop, thing)
    action = Action(["loop", thing, None, Time(interval), bool(now), body])

    def made(deferred: Deferred[Any], record: Record) -> None:
        action[2] = record
        watcher.tell("loop ", thing, " ", record)

    def start() -> Any:
        watcher.expect(made)
        if watcher.pace is not None:
            known.loop = paced = watcher.pace.start_loop(interval, inner)
            action[3] = Time(seconds_of(paced.interval))
        setattr(loop, "_dv_loop", (watcher, known))
        return _start(loop, interval, now)

    return _act(watcher, inner, action, start)


def _unfinished(watcher: Observer, loop: task.LoopingCall) -> Optional[Known]:
    """What was known of a loop that is started again while a turn of it is scheduled or goes on."""
    before = _known(watcher, loop)
    if before is None or before.inner is None or (before.inner.is_between_turns and not before.calls):
        return None
    watcher.problem("a loop that is started again while a turn of it waits or goes on", "loop", before.inner)
    return before


def _act(watcher: Observer, inner: Optional[Inner], action: Action, call: Callable[..., Any], *args: Any) -> Any:
    """Performs a call of the program's on a loop."""
    return watcher.act(action, call, *args) if inner is None else inner.act(watcher, action, call, *args)


def _can_be_told(watcher: Observer, loop: task.LoopingCall, interval: float) -> bool:
    """Whether the language has such a loop."""
    return (
        is_delay(interval)
        and interval > 0
        and (isinstance(loop.clock, task.Clock) or is_real(loop.clock))
        and "clock" in watcher.kinds
        and has_clock(watcher, loop.clock)
    )


def _instrumented_stop(self: task.LoopingCall) -> None:
    watcher = observer_of("loop")
    known = _known(watcher, self)
    if watcher is None or known is None or watcher.quiet:
        _stop(self)
        return
    _act(watcher, known.inner, Action(["stopLoop", known.thing]), _tell_stop, watcher, self, known)


def _tell_stop(watcher: Observer, loop: Any, known: Known) -> None:
    was_running = loop.running
    if was_running:
        watcher.tell("stop ", known.thing)
    try:
        if known.inner is not None and was_running and loop.call is not None:
            _note_cancelled(watcher, known, known.inner, loop.call)
            known.inner.fire_by(watcher, loop._deferred, loop, _stop, loop)
        else:
            _stop(loop)
    except AssertionError as error:
        if not was_running:
            set_message(error, "not running")
        raise


def _note_cancelled(watcher: Observer, known: Known, inner: Inner, scheduled: Any) -> None:
    """A turn that is scheduled is about to be cancelled."""
    call = next((call for call in known.calls if call.scheduled is not None and call.scheduled() is scheduled), None)
    if call is not None:
        known.calls.remove(call)
        inner.cancel(watcher, call)


def _instrumented_call(self: task.LoopingCall) -> None:
    watcher = observer_of("loop")
    known = _known(watcher, self)
    if watcher is None or known is None:
        _call(self)
        return
    if not watcher.quiet:
        watcher.problem("a turn that the program itself runs", "loop", known.inner)
        _act(watcher, known.inner, Action(["turn", known.thing]), _run_turn, watcher, self, known)
        return
    call = _due(watcher, known)
    if call is None or known.inner is None:
        _run_turn(watcher, self, known)
        return
    known.calls.remove(call)
    watcher.tell("turn ", known.thing)
    known.inner.run_call(watcher, call, functools.partial(_run_told_turn, watcher, self, known))


def _due(watcher: Observer, known: Known) -> Optional[OwnCall]:
    """The turn that was scheduled and runs now, or None, if the loop starts with it."""
    if watcher.pace is not None:
        return next((call for call in known.calls if watcher.pace.is_running(call.waiting)), None)
    return min(known.calls, key=_due_time) if known.calls else None


def _due_time(call: OwnCall) -> float:
    return call.due


def _run_turn(watcher: Observer, loop: task.LoopingCall, known: Known) -> None:
    """Runs a turn."""
    watcher.tell("turn ", known.thing)
    _run_told_turn(watcher, loop, known)


def _run_told_turn(watcher: Observer, loop: task.LoopingCall, known: Known) -> None:
    """Runs a turn, whose line was the last."""
    watcher.turn = known.body
    if known.inner is None:
        _call(loop)
    else:
        known.inner.run_turn(watcher, known.body, _call, loop)


def _instrumented_reset(self: task.LoopingCall) -> None:
    watcher = observer_of("loop")
    known = _known(watcher, self)
    if watcher is None or known is None or watcher.quiet:
        _reset(self)
        return
    watcher.problem("LoopingCall.reset", "loop", known.inner)
    _act(watcher, known.inner, Action(["resetLoop", known.thing]), _note_reset, watcher, self, known)


def _note_reset(watcher: Observer, loop: Any, known: Known) -> None:
    if known.loop is not None:
        known.loop.is_loose = True
    if known.inner is not None and loop.call is not None:
        _note_cancelled(watcher, known, known.inner, loop.call)
    _reset(loop)


def _own_turn(watcher: Observer, call: Callable[..., Any]) -> Optional[Own]:
    """Twisted schedules the next turn of a loop."""
    known = _known(watcher, call)
    if known is None:
        return None
    scheduling = _Scheduling(watcher, known, call)
    return Own(("later loop ", known.thing, " "), scheduling.wait, scheduling.note, known.keep)


class _Scheduling:
    """A turn is being scheduled."""

    def __init__(self, watcher: Observer, known: Known, looping: Any) -> None:
        self._watcher = watcher
        self._known = known
        self._looping = looping
        self._waiting: Optional[Waiting] = None

    def wait(self, pace: Any, delay: float) -> Waiting:
        """Has it wait on a real reactor."""
        waiting: Waiting = pace.turn(self._known.loop, self._looping, delay)
        self._waiting = waiting
        return waiting

    def note(self, delay: Time) -> None:
        """Notes it."""
        inner = self._known.inner
        if inner is None:
            return
        if self._waiting is None and not _is_whole(self._looping, float(delay.seconds)):
            self._watcher.problem("a turn isn't due a whole number of intervals after the start, since times are floats", "loop", inner)
        self._known.calls.append(inner.schedule(self._watcher, inner.made_at, delay, self._waiting))


def _is_whole(loop: Any, delay: float) -> bool:
    """Whether a turn that is scheduled on a Clock is due when it would be if times weren't floats."""
    passed = (loop.clock.seconds() - loop.starttime) / loop.interval
    return bool(abs(passed + delay / loop.interval - math.floor(passed + _NEARLY) - 1) < _NEARLY)


def _add_first(
    watcher: Observer,
    deferred: Deferred[Any],
    record: Record,
    callback: Callable[..., Any],
    errback: Callable[..., Any],
    arguments: PairArguments,
) -> bool:
    """The first pair of a turn, of which is noted what it does."""
    if callback.__closure__ is None:
        return False
    loop: Any = callback.__closure__[0].cell_contents
    known = _known(watcher, loop)
    if known is None or known.inner is None or known.inner.turn is None:
        return False
    inner, turn = known.inner, known.inner.turn
    turn.record = record
    if record.name == "-":
        record.made_at = inner.made_at
    else:
        turn.named_at = len(watcher.parts)
        watcher.parts.extend([""] * _PARTS_OF_NAME)
    turn.added_at = (len(watcher.parts),)

    def succeeded(result: object) -> object:
        if observer_of("loop") is not watcher:
            return callback(result)
        if loop.running or loop._deferred is None:
            return inner.in_side(watcher, turn, 0, record.outcome, callback, result)
        return inner.in_side(watcher, turn, 0, record.outcome, inner.fire_by, watcher, loop._deferred, loop, callback, result)

    add_own_pair(watcher, deferred, record, succeeded, errback, arguments)
    return True


def _add_second(
    watcher: Observer,
    deferred: Deferred[Any],
    record: Record,
    callback: Callable[..., Any],
    errback: Callable[..., Any],
    arguments: PairArguments,
) -> bool:
    """The second pair of a turn, which the language tells as one with the first."""
    if not watcher.quiet or errback.__closure__ is None:
        return False
    loop: Any = errback.__closure__[0].cell_contents
    known = _known(watcher, loop)
    inner = None if known is None else known.inner
    turn = None if inner is None else inner.turn
    if turn is not None:
        # the line of this pair has a place: it is logged only where no loop is recorded
        turn.added_at += (len(watcher.parts),)
        watcher.parts.extend(("", "", ""))

    def failed(failure: object) -> object:
        if observer_of("loop") is not watcher:
            return errback(failure)
        if loop._deferred is None:
            if inner is not None:
                inner.quirk(watcher, Entry.LOOP_FIRED_BY_HAND)
            watcher.quirk(Entry.LOOP_FIRED_BY_HAND)
        watcher.tell("run ", record)
        try:
            if inner is None or turn is None:
                return errback(failure)
            if loop._deferred is None:
                return inner.in_side(watcher, turn, 1, record.outcome, errback, failure)
            return inner.in_side(watcher, turn, 1, record.outcome, inner.fire_by, watcher, loop._deferred, failure, errback, failure)
        finally:
            record.ran = True

    add_silently(deferred, callback, failed, arguments)
    return True


def install() -> None:
    """Puts the instrument into the class."""
    setattr(task.LoopingCall, "_dv_loop", None)  # an object whose `__dict__` is asked for is slower from then on
    setattr(task.LoopingCall, "start", _instrumented_start)
    setattr(task.LoopingCall, "stop", _instrumented_stop)
    setattr(task.LoopingCall, "reset", _instrumented_reset)
    setattr(task.LoopingCall, "__call__", _instrumented_call)
    own_calls.append(_own_turn)
    special_callbacks["LoopingCall.__call__.<locals>.cb"] = _add_first
    special_pairs["LoopingCall.__call__.<locals>.eb"] = _add_second
