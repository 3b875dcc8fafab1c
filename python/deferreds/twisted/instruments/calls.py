"""The instrument of delayed calls that are cancelled or moved, on a Clock or on a real reactor."""

from __future__ import annotations

import functools
from typing import Any, Callable

from twisted.internet import base

from ..grammar import LATEST
from ..profile import Entry
from ..telling import Action, Observer, Time, observer_of, observers_on
from .clock import Delayed, delayed_of, is_time, refuse_timer
from .reactors import move, waiting_of

_cancel: Callable[[base.DelayedCall], None] = base.DelayedCall.cancel


def _instrumented_cancel(self: base.DelayedCall) -> None:
    if not observers_on:
        return _cancel(self)
    watcher = observer_of("clock")
    if watcher is None:
        return _cancel(self)
    refuse_timer(watcher, self, "cancel")
    waiting = waiting_of(watcher, self)
    delayed = delayed_of(watcher, self)
    is_active = bool(self.active())
    if watcher.quiet or delayed is None:
        _cancel(self)
    else:
        watcher.act(Action(["cancelCall", delayed.thing]), _tell_cancelled, watcher, self, delayed)
    if waiting is not None and is_active:
        watcher.pace.end(waiting)
    return None


def _tell_cancelled(watcher: Observer, call: base.DelayedCall, delayed: Delayed) -> None:
    if call.active():
        watcher.tell("uncall ", delayed.thing)
    _cancel(call)


def _instrument_moving(name: str, word: str) -> None:
    """`reset` and `delay`."""
    original: Callable[[Any, float], None] = getattr(base.DelayedCall, name)

    def moved(self: Any, seconds: float) -> None:
        watcher = observer_of("clock") if observers_on else None
        if watcher is None:
            return original(self, seconds)
        refuse_timer(watcher, self, name)
        delayed = delayed_of(watcher, self)
        if watcher.quiet or delayed is None:
            return original(self, seconds)
        if not is_time(seconds):
            watcher.problem(f"a delayed call is moved by what is no number of seconds ({name})", "clock")
            return original(self, seconds)
        action = Action([word, delayed.thing, Time(max(0, seconds))])
        if not self.active():
            how: Callable[[], object] = functools.partial(original, self, seconds)
        elif waiting_of(watcher, self) is not None:
            how = functools.partial(move, watcher, self, action, original, seconds)
        else:
            how = functools.partial(_move_on_clock, watcher, self, action, original, seconds)
        watcher.act(action, how)
        return None

    setattr(base.DelayedCall, name, moved)


def _move_on_clock(
    watcher: Observer, call: Any, action: Action, how: Callable[[Any, float], None], seconds: float
) -> None:
    """Tells that a call of a Clock is due at another time, and has that be so."""
    now = watcher.now()
    due = now + seconds if action[0] == "resetCall" else call.getTime() - watcher.clock_base + seconds
    if seconds < 0:
        # the language has no delay below 0: what is recorded is by how much later than now the call is due
        action[0], action[2] = "resetCall", Time(max(0, due - now))
        if due < now:
            watcher.problem(f"a delayed call is moved to a time that is past ({how.__name__})", "clock")
    elif not now <= due <= LATEST:
        watcher.quirk(Entry.DELAY_BOUNDS)
    watcher.has_reset = True
    watcher.tell("reset ", action[1], " ", Time(due))
    how(call, seconds)


def install() -> None:
    """Puts the instrument into DelayedCall."""
    setattr(base.DelayedCall, "cancel", _instrumented_cancel)
    _instrument_moving("reset", "resetCall")
    _instrument_moving("delay", "delayCall")
