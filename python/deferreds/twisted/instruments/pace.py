"""The pace of a run on a real reactor: notes in what order calls are scheduled, run and cancelled, and when something else happens.

The times of lines and actions are set when the run is said (`settle`). Until then nothing but this order is known of them.
"""

from __future__ import annotations

import asyncio
from contextvars import Context
from fractions import Fraction
from typing import Any, Callable, Dict, List, NamedTuple, Optional, Tuple

from twisted.internet import base

from ..telling import Action, Advance, Observer, Time
from .settling import MILLISECOND, UNITS, Conflict, Entry, Loop, Step, Tick, settle, without_ticks

#: how far apart loops may start in a body, and be told to start at one time
_APART = 50 * MILLISECOND
#: how long before a due turn a loop is recorded to start
_BEFORE = 50
#: what a turn is put off by, in seconds, for each other one that is due at its time
_BEHIND = 5e-7
#: how far a turn may be put off, in seconds
_MOST_MOVED = 0.1
#: how long before a turn's time Twisted must have it be due, in seconds: what a clock's float leaves out is less
_LEAST_BEFORE = 1e-6
#: how much later than it is recorded to a loop may start, and be recorded to start then
_MOST_LATE = 50 * MILLISECOND
#: how long before the time at which it is recorded to start a loop that started late has started, at least
_LEAST_EARLY = 10


#: how many shorter beginnings of a run are tried, before half of one is
_MOST_TRIED = 10


class Waiting(NamedTuple):
    """Something that waits for the reactor's time: when it is recorded as due, and after what delay."""

    entry: Entry
    due: Time
    delay: Time


class Moved(NamedTuple):
    """That something is due at another time than before, and the action which has that be so."""

    action: Action
    before: Entry
    waiting: Waiting


class Pace:
    """The told time of a run on a real reactor."""

    def __init__(self, watcher: Observer, reactor: Any) -> None:
        self._watcher = watcher
        self._reactor = reactor
        self._base: float = reactor.seconds()
        #: what has happened, in order, with the advances; what was scheduled; and what was moved
        self.steps = [Step(None, 0)]
        self.advances: Dict[Step, Advance] = {}
        self.waiting: List[Waiting] = []
        self.moved: List[Moved] = []
        #: how many more turns are due when one is
        self._turns: Dict[int, int] = {}
        #: the turn for which a loop waits, and its call
        self._calls: Dict[Loop, Tuple[Entry, Any]] = {}
        #: when the reactor has looked what is due, and whether it has run that since something came from elsewhere
        self._turn: Optional[int] = None
        self._fresh = False
        #: asyncio's loop, if that is what runs the reactor, and whether time has gone on to what happens in this turn of it
        self._loop = loop_of(reactor)
        self._told = False
        #: whether another loop runs the reactor, whose turns aren't known
        self._is_driven = self._loop is None and type(reactor).callLater is not base.ReactorBase.callLater

    def _real(self) -> int:
        """The reactor's time, in whole units since the run began."""
        return max(0, int((self._reactor.seconds() - self._base) * UNITS))

    # the reactor's turns

    def begin_turn(self) -> None:
        """The reactor is about to run what other threads have posted, and what is due."""
        self._turn = None

    def look(self) -> None:
        """The reactor is about to look what is due."""
        self._turn = self._real()

    def end_turn(self) -> None:
        """The reactor has run what was due: what comes next comes from elsewhere."""
        self._turn, self._fresh, self._told = None, True, False
        self._watcher.rests()

    def _is_fresh(self) -> bool:
        """Whether what comes from elsewhere now is the first in a turn."""
        if self._is_driven:
            return self._fresh or self._real() >= self.steps[-1].real + MILLISECOND
        return self._fresh or (not self._told and self._is_in_loop())

    def _is_in_loop(self) -> bool:
        """Whether asyncio's loop, which runs the reactor, is what calls."""
        return self._loop is not None and asyncio._get_running_loop() is self._loop

    def _tell_time(self) -> None:
        """Time goes on to what comes from elsewhere, and not again in this turn.

        asyncio's loop calls much that isn't the reactor's, so it is asked to tell when its next turn begins.
        """
        self._fresh = False
        if not self._told and self._is_in_loop():
            self._told = True
            self._loop.call_soon(self._begin_turn_of_loop, context=Context())

    def _begin_turn_of_loop(self) -> None:
        self._told = False
        self._watcher.rests()

    # what is scheduled

    def later(self, delay: float) -> Waiting:
        """A call is scheduled, so many seconds from now."""
        return self._make(Entry(len(self.waiting), round(delay * UNITS)))

    def reset(self, waiting: Waiting, delay: float, action: Action) -> Waiting:
        """What waits is due so many seconds from now, by this action."""
        return self._move(waiting, Entry(waiting.entry.order, round(delay * UNITS), moved=waiting.entry.moved + 1), action)

    def delay(self, waiting: Waiting, delay: float, action: Action) -> Waiting:
        """What waits is due so many seconds later than before, by this action."""
        before = waiting.entry
        return self._move(waiting, Entry(before.order, round(delay * UNITS), moved=before.moved + 1, before=before), action)

    def _move(self, waiting: Waiting, entry: Entry, action: Action) -> Waiting:
        """It waits as this entry from now on, which has its place in the order of scheduling."""
        fresh = self._make(entry)
        self.steps[-1].end(waiting.entry)
        self.moved.append(Moved(action, waiting.entry, fresh))
        action[2] = fresh.delay
        return fresh

    def job(self) -> Waiting:
        """A result will come, at a time that isn't known."""
        return self._make(Entry(len(self.waiting)))

    def tick(self, delay: float, further: bool, owner: Any = None) -> Waiting:
        """A tick is scheduled, so many seconds from now: one of the first Cooperator, or of a further one."""
        return self._make(Entry(len(self.waiting), tick=Tick(round(delay * UNITS), further, owner)))

    def hold_place(self) -> Waiting:
        """A call could be scheduled now that is due at once: `run_at_once` has it be so."""
        waiting = Waiting(Entry(len(self.waiting), 0), Time(0), Time(0))
        self.waiting.append(waiting)
        return waiting

    def _make(self, entry: Entry) -> Waiting:
        waiting = Waiting(entry, Time(0), Time(0))
        self.waiting.append(waiting)
        self.steps[-1].make(entry)
        return waiting

    def start_loop(self, interval: float, owner: Any = None) -> Loop:
        """A loop is about to start.

        It is recorded to start at the next whole millisecond of the reactor's, or before a turn that is due by then, or with another that
        the same body has just started.
        """
        step = self.steps[-1]
        at = self._first_start() if step is self.steps[0] and not step.starts else self._next_start()
        if step.starts and at - step.starts[0].at < _APART:
            at = step.starts[0].at
        loop = Loop(max(1, round(interval * UNITS)), at, self._watcher.place(), owner)
        step.starts.append(loop)
        return loop

    def _first_start(self) -> int:
        """All that was scheduled until now is recorded to be at the beginning, which is the next millisecond."""
        self._base = self._reactor.seconds() + 1 / 1000
        return 0

    def _next_start(self) -> int:
        real = self._real()
        at = -(-real // MILLISECOND) * MILLISECOND
        waiting = min(self._turns, default=at + 1)
        return at if waiting > at else min(real, waiting - _BEFORE)

    def turn(self, loop: Loop, looping: Any, delay: float) -> Waiting:
        """The next turn of a loop is scheduled, so many seconds from now."""
        asked = round(delay * UNITS)
        if loop.is_loose:
            return self._make(Entry(len(self.waiting), asked, loop))
        since = self._reactor.seconds() + delay - looping.starttime
        number = max(1, round(since / looping.interval) - loop.missed)
        if number > 1 and len(self.steps) == 1 and self.steps[0].starts == [loop]:
            # its first turn has blocked: the beginning is recorded to be after that
            loop.missed, number = number - 1, 1
            self._base += loop.missed * loop.interval / UNITS
        loop.earliest = looping.starttime + (number + loop.missed) * looping.interval
        if number == 1 and loop in self.steps[-1].starts:
            self._start_late(loop, looping.starttime + loop.missed * looping.interval)
        return self._make(Entry(len(self.waiting), asked, loop, number))

    def _start_late(self, loop: Loop, started: float) -> None:
        """A loop that has started after the time at which it is recorded to, as on a busy machine, is recorded to start after that.

        So are those which are recorded to start with it: the turns of all are due at times that can be given to their calls.
        """
        step = self.steps[-1]
        late = int((started - self._base) * UNITS) + _LEAST_EARLY - loop.at
        late = -(-late // MILLISECOND) * MILLISECOND
        together = [other for other in step.starts if other.at == loop.at]
        most = min(_MOST_LATE, *(other.interval // 4 for other in together))
        calls = {other: self._calls[other] for other in together if other in self._calls}
        waiting = self._turns.keys() - {_due_turn(entry, other) for other, (entry, _) in calls.items()}
        if not 0 < late <= most or min(waiting, default=loop.at + late + 1) <= loop.at + late:
            return
        for entry, _ in calls.values():
            self._forget_turn(entry)
        if step is self.steps[0]:
            self._base += late / UNITS
        else:
            for other in together:
                other.at += late
        for entry, call in calls.values():
            self._align(entry, call)

    def align(self, waiting: Waiting, call: Any) -> None:
        """Has a turn be due as a whole number of intervals after its loop is recorded to start.

        Twisted asks the clock twice, so that turns which fall together would run in an order that nothing but chance gives.
        """
        if waiting.entry.is_turn:
            self._align(waiting.entry, call)

    def _align(self, entry: Entry, call: Any) -> None:
        loop = entry.loop
        assert loop is not None
        self._calls[loop] = entry, call
        due = _due_turn(entry, loop)
        others = self._turns[due] = self._turns.get(due, -1) + 1
        time = self._base + due / UNITS + others * _BEHIND
        if loop.earliest + _LEAST_BEFORE < time < call.time + _MOST_MOVED:
            call.time = time

    # what happens

    def event(self, starts_loop: bool) -> None:
        """The program does something of its own: time goes on to that, once in a turn of the reactor's, and where a loop starts."""
        step = self.steps[-1]
        step.closed = True
        if not self._is_fresh() and (not starts_loop or (step is self.steps[0] and not step.starts)):
            return
        self._tell_time()
        advance = self._begin(None, self._real() if self._turn is None else self._turn)
        self._watcher.act(advance, self._watcher.parts.append, advance)

    def run(self, waiting: Waiting, happen: Callable[[], Any]) -> Any:
        """The reactor runs what has waited."""
        watcher = self._watcher
        if watcher.acting or watcher.frame is not watcher.top:
            watcher.problem("the reactor runs inside a body", "clock")
            return happen()
        self._forget_turn(waiting.entry)
        if self._turn is None:
            self._turn = self._real()
        advance = self._begin(waiting.entry, self._turn)
        self._fresh, self._told = False, True

        def perform() -> Any:
            watcher.parts.append(advance)
            return happen()

        return watcher.act(advance, perform)

    def end(self, waiting: Waiting) -> None:
        """What waits is cancelled."""
        self._forget_turn(waiting.entry)
        self.steps[-1].end(waiting.entry)

    def _forget_turn(self, entry: Entry) -> None:
        if entry.loop is not None and entry.turn:
            self._calls.pop(entry.loop, None)
            self._turns.pop(_due_turn(entry, entry.loop), None)

    def _begin(self, entry: Optional[Entry], real: int) -> Advance:
        step = Step(entry, real)
        self.steps.append(step)
        advance = self.advances[step] = Advance()
        return advance

    # times

    def run_at_once(self, waiting: Waiting, after: Action, advance: Advance) -> None:
        """Has a call be scheduled at the end of what an advance has run, and be run next, by another advance."""
        place = next(place for place, step in enumerate(self.steps) if self.advances.get(step) is after)
        before = self.steps[place]
        before.closed = True
        before.make(waiting.entry)
        step = Step(waiting.entry, before.real)
        self.steps.insert(place + 1, step)
        self.advances[step] = advance

    def loosen(self, is_left: Callable[[Any], bool]) -> None:
        """Has turns of loops that have such an owner be delayed calls that do nothing: what they do is done after them."""
        for step in self.steps:
            for loop in step.starts:
                loop.is_loose = loop.is_loose or is_left(loop.owner)
            step.loosen_turn(lambda entry: is_left(entry.owner))

    def leave_ticks(self, is_left: Callable[[Any], bool], has_events: Callable[[Advance], bool]) -> None:
        """Has ticks that have such an owner come from elsewhere, those in which something happens: an event, or something is scheduled."""
        kept = without_ticks(self.steps, lambda entry: is_left(entry.owner), lambda step: has_events(self.advances[step]))
        for step in set(self.steps).difference(kept):
            self.advances.pop(step).is_told = False
        self.steps = kept

    def is_running(self, waiting: Waiting) -> bool:
        """Whether this is what the reactor has run last."""
        return self.steps[-1].entry is waiting.entry

    def settle(self) -> Optional[Conflict]:
        """Sets the times of all lines and actions: why there are none, where no times give what happened."""
        conflict: Optional[Conflict] = None
        try:
            settle(self.steps)
        except Conflict as why:
            conflict = why
        self._set_times()
        return conflict

    def settle_beginning(self, conflict: Conflict) -> Optional[Advance]:
        """Sets the times of a beginning of the run that has some, up to about where this is in the way. Gives the advance after it, if
        there is such a beginning. What comes after it has the reactor's times."""
        place = self._settled_steps(conflict.steps)
        if place == 0:
            return None
        last = self.steps[place - 1].time
        for step in self.steps[place:]:
            step.advances, step.time = True, max(last, step.real)
            step.by, last = step.time - last, step.time
        self._set_times()
        return self.advances.get(self.steps[place])

    def _settled_steps(self, most: int) -> int:
        """Settles the first steps, so many at most, and gives how many."""
        place, tried = most, 0
        while place > 0:
            try:
                settle(self.steps[:place])
                break
            except Conflict as why:
                tried += 1
                place = min(why.steps, place - 1 if tried < _MOST_TRIED else place // 2)
        return place

    def _set_times(self) -> None:
        """Sets the times of all lines and actions to those of the steps."""
        for step, advance in self.advances.items():
            advance.is_told = step.advances
            advance.to.seconds, advance.by.seconds = seconds_of(step.time), seconds_of(step.by)
        for entry, due, delay in self.waiting:
            due.seconds, delay.seconds = seconds_of(entry.due), seconds_of(max(0, entry.due - entry.at))
        for action, before, (entry, _, delay) in self.moved:
            is_delayed = entry.before is before and entry.due >= before.due
            action[0] = "delayCall" if is_delayed else "resetCall"
            if is_delayed:
                delay.seconds = seconds_of(entry.due - before.due)


def _due_turn(entry: Entry, loop: Loop) -> int:
    """When a turn is due on the reactor."""
    return loop.at + entry.turn * loop.interval


def seconds_of(units: int) -> Fraction:
    """A number of units, in seconds, exactly."""
    return Fraction(units, UNITS)


def loop_of(reactor: Any) -> Any:
    """asyncio's loop, if that is what runs a reactor."""
    return getattr(reactor, "_asyncioEventloop", None) if is_real(reactor) else None


def is_real(clock: object) -> bool:
    """Whether it is a real reactor."""
    return isinstance(clock, base.ReactorBase)


def has_clock(watcher: Observer, clock: Any) -> bool:
    """Whether this Clock, or real reactor, is the clock of the run. The first that is used is."""
    if not is_real(clock):
        return watcher.has_clock(clock)
    if not watcher.has_had_clock:
        watcher.use_clock(clock)
        watcher.pace = Pace(watcher, clock)
    return watcher.is_clock(clock) and watcher.pace is not None
