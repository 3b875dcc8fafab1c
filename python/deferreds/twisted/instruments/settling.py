"""Works out the times that are recorded of a run on a real reactor.

The clock of the language runs what is due by an advance, in the order of due time and of scheduling. A reactor's calls run late, and
their times are floats. So what happened is noted in order, as steps, and times are chosen when the run is over.

| What | Is told as due |
|---|---|
| a call or a timer | after the delay that was asked for, and where that isn't the order in which calls ran, when it ran |
| the result of a job | when it came |
| a turn of a loop, a tick | when the language has it: it can't be moved |
| a turn of a loop that is recorded as the delayed calls that it is made of | as it would be as a turn, or when it ran |

Times are whole units, of which a second has `UNITS`. What is chosen is run once more on a clock like that of the language. A run whose
order no times give is refused.
"""

from __future__ import annotations

from bisect import bisect_left, insort
from typing import Any, Callable, Dict, Iterator, List, NamedTuple, Optional, Sequence, Set, Tuple

UNITS = 1_000_000
MILLISECOND = UNITS // 1000
#: how late a call may run, and be told as running when it was due
_LATE = 5 * MILLISECOND
#: how often an advance is made to go further, since that has it run more
_MOST_WIDENED = 20

#: when something is due, its place in the order of scheduling, and how often it was moved
Key = Tuple[int, int, int]

_NOTHING: Key = (-1, -1, -1)


class Conflict(Exception):
    """No times give the order in which things happened: why, where in the program, and which kind of object is in the way.

    `owner`: what that object was given as its owner.
    """

    def __init__(self, reason: str, place: str, kind: str, owner: Any = None) -> None:
        super().__init__(reason)
        self.reason = reason
        self.place = place
        self.kind = kind
        #: how many steps may have times
        self.steps = 0
        self.owner = owner


class Manner(NamedTuple):
    """How times are chosen."""

    #: what times of the reactor are rounded to
    grain: int
    #: whether each advance goes to the reactor's time, or to when its call is due, unless it runs late
    exact: bool
    #: after what time a tick is due
    tick: int
    #: whether one of the first Cooperator is due when that was asked for, if that isn't sooner than in a millisecond
    asked: bool = False
    #: whether calls that schedule ticks run in advances of their own, so that these ticks are due at different times
    apart: bool = False

    def due_in(self, tick: "Tick") -> int:
        """After what time this tick is due."""
        return tick.delay if tick.delay >= MILLISECOND and (tick.further or self.asked) else self.tick


#: in the order in which they are tried
MANNERS = (
    Manner(MILLISECOND, False, MILLISECOND),
    Manner(MILLISECOND, False, 1),
    *(Manner(1, True, tick) for tick in (1, 200, 10)),
)
#: how many of them come before those that have the reactor's times
_ROUND = 2
#: those that are tried after them, where ticks of the first Cooperator are far from each other
FAR_MANNERS = tuple(manner._replace(asked=True) for manner in MANNERS)
#: those that are tried where there are ticks of several Cooperators
OF_SEVERAL = (
    *FAR_MANNERS[:_ROUND],
    *(Manner(1, True, tick, True, apart) for apart in (False, True) for tick in (200, 10, 1)),
)


class Tick(NamedTuple):
    """A tick: the delay that was asked for, whether it is of another Cooperator than the first, and who can be recorded without it."""

    delay: int
    further: bool
    owner: Any = None


class Loop:
    """A loop: its interval, the reactor's time at which it starts, and where the program starts it."""

    def __init__(self, interval: int, at: int, place: str, owner: Any = None) -> None:
        self.interval = interval
        self.at = at
        self.place = place
        #: who can be recorded without it, and whether its turns are recorded as delayed calls
        self.owner = owner
        self.is_loose = False
        #: how many of its turns were missed before the beginning of the told time
        self.missed = 0
        #: its number in the notes of the run, if these are written
        self.noted_as = -1
        #: the reactor's time, in seconds, before which Twisted doesn't have the turn be due for which it waits
        self.earliest = 0.0
        #: the time at which it is recorded to start
        self.start = at

    def reached(self, turn: int) -> int:
        """From what time on it is recorded to be that turn which the reactor has scheduled next."""
        first = self.at if (self.start - self.at) % self.interval == 0 else self.start
        return first + (turn - 1) * self.interval


class Entry:
    """Something that waits for its time."""

    def __init__(
        self,
        order: int,
        delay: Optional[int] = None,
        loop: Optional[Loop] = None,
        turn: int = 0,
        tick: Optional[Tick] = None,
        moved: int = 0,
        before: Optional["Entry"] = None,
    ) -> None:
        #: its place in the order of scheduling, which a call keeps that is moved, and how often it was
        self.order = order
        self.moved = moved
        #: the delay that was asked for: none is for the result of a job, and for a tick
        self.delay = delay
        #: the same call before it was moved, where the delay counts from when that was due
        self.before = before
        #: the loop whose turn it is, and which turn: 0 is for one that isn't due a whole number of intervals after the start
        self.loop = loop
        self.turn = turn
        self.tick = tick
        #: whether an advance goes on that may run it still
        self.inside = False
        #: its number in the notes of the run, if these are written
        self.noted_as = -1
        #: when it is recorded to be scheduled, and to be due
        self.at = 0
        self.due = 0
        #: how many advances had begun when it was scheduled, and what had run last
        self.seen = 0
        self.after: Key = _NOTHING

    @property
    def is_turn(self) -> bool:
        """Whether it is a turn, and is recorded as one."""
        return self.loop is not None and not self.loop.is_loose

    @property
    def is_fixed(self) -> bool:
        """Whether the language works out when it is due."""
        return self.is_turn or self.tick is not None

    @property
    def is_further(self) -> bool:
        """Whether it is a tick of another Cooperator than the first."""
        return self.tick is not None and self.tick.further

    @property
    def owner(self) -> Any:
        """Who can be told without it, if anybody."""
        return self.loop.owner if self.loop is not None else self.tick.owner if self.tick is not None else None

    @property
    def key(self) -> Key:
        """Its place among what waits."""
        return self.due, self.order, self.moved


class Step:
    """Something that happens at a time of the reactor: it runs what has waited, or something comes from elsewhere."""

    def __init__(self, entry: Optional[Entry], real: int) -> None:
        self.entry = entry
        self.real = real
        self.made: List[Entry] = []
        #: what was cancelled, and whether the advance still went on then
        self.ended: List[Tuple[Entry, bool]] = []
        self.starts: List[Loop] = []
        #: whether the program has done something since that its advance doesn't run
        self.closed = False
        #: whether time goes on with it, to when, and by how much
        self.advances = False
        self.time = 0
        self.by = 0

    def make(self, entry: Entry) -> None:
        """Something is scheduled."""
        entry.inside = self.entry is not None and not self.closed
        self.made.append(entry)

    def end(self, entry: Entry) -> None:
        """Something that waits is cancelled."""
        self.ended.append((entry, self.entry is not None and not self.closed))

    def leave_ticks(self, is_left: Callable[[Entry], bool]) -> bool:
        """Leaves out some ticks. Gives whether it has run one: then it comes from elsewhere from now on."""
        self.made = [entry for entry in self.made if not (entry.tick is not None and is_left(entry))]
        self.ended = [(entry, inside) for entry, inside in self.ended if not (entry.tick is not None and is_left(entry))]
        if self.entry is None or self.entry.tick is None or not is_left(self.entry):
            return False
        self.entry = None
        self._come_apart()
        return True

    def loosen_turn(self, is_left: Callable[[Entry], bool]) -> None:
        """Has the turn that it runs be a delayed call that does nothing, if it is one of these: what it does is done after it."""
        if self.entry is not None and self.entry.loop is not None and is_left(self.entry):
            self.closed = True
            self._come_apart()

    def _come_apart(self) -> None:
        """No advance runs what is scheduled and cancelled in it."""
        self.ended = [(entry, False) for entry, _ in self.ended]
        for entry in self.made:
            entry.inside = False


def without_ticks(steps: Sequence[Step], is_left: Callable[[Entry], bool], matters: Callable[[Step], bool]) -> List[Step]:
    """The steps, of which those that run a tick which is left out come from elsewhere. Those in which nothing matters are left out."""
    kept: List[Step] = []
    for step in steps:
        is_tick = step.leave_ticks(is_left)
        if not is_tick or step.made or step.ended or step.starts or matters(step):
            if is_tick:
                kept[-1].closed = True
            kept.append(step)
        else:
            kept[-1].closed |= step.closed
    return kept


def settle(steps: Sequence[Step]) -> None:
    """Chooses all times. Raises Conflict, where there are none."""
    ticks = {entry.tick for step in steps for entry in step.made if entry.tick is not None}
    manners = _manners_for(ticks)
    tried: List[Tuple[int, int]] = []
    conflict: Optional[Conflict] = None
    for place, manner in enumerate(manners):
        if tried and place >= _ROUND:
            break
        try:
            moved = _settled(steps, manner)
        except Conflict as why:
            conflict = conflict or why
            conflict.steps = max(conflict.steps, why.steps)
            continue
        if not moved or not ticks:
            return
        tried.append((moved, place))
    if not tried:
        assert conflict is not None
        raise conflict
    _settled(steps, manners[min(tried)[1]])


def _manners_for(ticks: Set[Tick]) -> Sequence[Manner]:
    """The manners that are tried where there are these ticks."""
    if not ticks:
        return MANNERS[0], MANNERS[_ROUND]
    if any(tick.further for tick in ticks):
        return OF_SEVERAL
    is_far = any(tick.delay >= MILLISECOND for tick in ticks)
    return (*MANNERS, *FAR_MANNERS) if is_far else MANNERS


def _settled(steps: Sequence[Step], manner: Manner) -> int:
    """Chooses all times in this manner: how many calls are recorded as due at another time than was asked for."""
    settling = _Settling(steps, manner)
    place = 0
    try:
        for place, step in enumerate(steps):
            settling.take(step)
        settling.finish()
        for place, _ in enumerate(_checked(steps)):
            pass
    except Conflict as why:
        why.steps = place
        raise
    return settling.moved


class _Waiting:
    """What waits, in the order in which it is due."""

    def __init__(self) -> None:
        self._keys: List[Key] = []
        self._entries: Dict[Key, Entry] = {}

    def add(self, entry: Entry) -> None:
        """It waits."""
        insort(self._keys, entry.key)
        self._entries[entry.key] = entry

    def remove(self, entry: Entry) -> None:
        """It doesn't wait any more, if it did."""
        if self._entries.pop(entry.key, None) is not None:
            del self._keys[bisect_left(self._keys, entry.key)]

    def first(self) -> Optional[Entry]:
        """What is due first."""
        return self._entries[self._keys[0]] if self._keys else None

    def first_after(self, time: int) -> Optional[Entry]:
        """What is due first after a time."""
        place = bisect_left(self._keys, (time + 1, 0, 0))
        return self._entries[self._keys[place]] if place < len(self._keys) else None

    def until(self, time: int) -> List[Entry]:
        """What is due by this time."""
        return [self._entries[key] for key in self._keys[: bisect_left(self._keys, (time + 1, 0, 0))]]

    def all(self) -> List[Entry]:
        """All of it, in order."""
        return [self._entries[key] for key in self._keys]


class _Settling:
    """Chooses times, step by step."""

    def __init__(self, steps: Sequence[Step], manner: Manner) -> None:
        self._steps = steps
        self._places = {step: place for place, step in enumerate(steps)}
        self._turning = any(not loop.is_loose for step in steps for loop in step.starts)
        self._manner = manner
        for step in steps:
            for loop in step.starts:
                loop.start = loop.at
        self._now = 0
        #: what the time was before the last advance, how many there were, and whether the last goes on
        self._before = -1
        self._count = 0
        self._open = False
        #: what the last advance has run last
        self._last: Key = _NOTHING
        #: what can't be moved, what was asked for, and the jobs whose result is to come
        self._fixed = _Waiting()
        self._asked = _Waiting()
        self._jobs: Dict[Entry, None] = {}
        self.moved = 0
        #: where ticks of several Cooperators wait: by which step each entry has run, or has ended
        self._over: Dict[Entry, int] = {}
        if any(entry.is_further for step in steps for entry in step.made):
            for place, step in enumerate(steps):
                self._over.update((entry, place) for entry, _ in step.ended)
                if step.entry is not None:
                    self._over[step.entry] = place

    def take(self, step: Step) -> None:
        """Chooses the times of a step."""
        step.advances = False
        if step.entry is None:
            self._elsewhere(step)
        else:
            self._forget(step.entry)
            if step.entry.is_fixed:
                self._run_fixed(step, step.entry)
            else:
                self._run_asked(step, step.entry)
        step.time = self._now
        for loop in step.starts:
            loop.start = self._now
        for entry in step.made:
            self._make(entry)
        for entry, is_inside in step.ended:
            self._end(entry, is_inside)
        if step.closed:
            self._open = False

    def finish(self) -> None:
        """The run is over: what waits is due later."""
        self._open = False
        for entry in (*self._fixed.all(), *self._asked.all(), *self._jobs):
            self._end(entry, False)

    def _forget(self, entry: Entry) -> None:
        """It doesn't wait any more."""
        self._fixed.remove(entry)
        self._asked.remove(entry)
        self._jobs.pop(entry, None)

    def _make(self, entry: Entry) -> None:
        entry.at, entry.seen, entry.after = self._now, self._count, self._last
        loop = entry.loop
        if loop is not None and entry.is_turn:
            entry.due = _next_turn(loop, self._now)
            self._fixed.add(entry)
        elif entry.tick is not None:
            entry.due = self._now + self._manner.due_in(entry.tick)
            self._fixed.add(entry)
        elif entry.delay is not None:
            since = self._now if entry.before is None else entry.before.due
            due = since + entry.delay if loop is None or entry.turn == 0 else loop.start + entry.turn * loop.interval
            entry.due = max(self._now, due)
            self._asked.add(entry)
        else:
            entry.due = self._now
            self._jobs[entry] = None

    def _end(self, entry: Entry, is_inside: bool) -> None:
        """It never runs, and so is due after all advances while it waited, unless it stands behind what runs."""
        self._forget(entry)
        if entry.due > self._now or (is_inside and self._joins(entry)):
            return
        if entry.is_fixed:
            raise _conflict(entry, "a turn or a tick was due, and something else happened first")
        if entry.delay is not None and (self._waited(entry, self._count) or entry.due < self._now):
            self.moved += 1
        entry.due = (self._now // self._manner.grain + 1) * self._manner.grain

    # what happens

    def _elsewhere(self, step: Step) -> None:
        """Something comes from elsewhere: time goes on to that, and stays before what is due."""
        first = self._fixed.first()
        if first is not None and first.due <= self._now:
            raise _conflict(first, "something happens between turns or ticks that are due at one time")
        self._open = False
        grain = self._manner.grain
        to = step.real // grain * grain
        asked = None if self._manner.exact else self._asked.first_after(self._now)
        if asked is not None and to >= asked.due:
            to = (asked.due - 1) // grain * grain
        to = max(min(to, self._most(step, to)), self._least(step))
        if first is not None and to >= first.due:
            to = self._now + (first.due - self._now) // 2
        if to > self._now and step is not self._steps[0]:
            self._advance(step, to)
            self._open = False

    def _run_fixed(self, step: Step, entry: Entry) -> None:
        first = self._fixed.first()
        if first is not None and first.key < entry.key:
            raise _conflict(entry, "turns or ticks ran in another order than they are due in")
        if entry.due <= self._now:
            if not self._joins(entry):
                raise _conflict(entry, "a turn or a tick was due, and something else happened first")
            self._last = entry.key
            return
        self._advance(step, self._late(step, entry.due))
        self._last = entry.key

    def _run_asked(self, step: Step, entry: Entry) -> None:
        first = self._fixed.first()
        if first is not None and first.due <= self._now:
            self._run_before(entry, first)
            return
        least = self._least(step)
        if entry.delay is not None:
            is_apart = self._manner.apart and any(made.tick is not None for made in step.made)
            if self._joins(entry) and least <= self._now and not is_apart:
                self._last = entry.key
                return
            is_next = entry.due > self._now or (entry.due == self._now and not self._waited(entry, self._count))
            is_next = is_next and entry.due <= self._most(step, entry.due)
            to = self._late(step, entry.due)
            if is_next and (first is None or to < first.due or (entry.key < first.key and self._is_right(step, to))):
                self._advance(step, to)
                self._last = entry.key
                return
        self._run_moved(step, entry, first)

    def _run_before(self, entry: Entry, first: Entry) -> None:
        """It ran in an advance that still has to run something fixed."""
        if not self._joins(entry) or entry.key > first.key:
            self._squeeze(entry)
            if not self._joins(entry) or entry.key > first.key:
                raise _conflict(first, "something else ran before a turn or a tick that was due")
        self._last = entry.key

    def _squeeze(self, entry: Entry) -> None:
        """It is recorded as due right after what ran last."""
        due, *place = self._last
        entry.due = max(entry.at, due if [entry.order, entry.moved] > place else due + 1)
        self.moved += entry.delay is not None

    def _run_moved(self, step: Step, entry: Entry, first: Optional[Entry]) -> None:
        """It is recorded as due when it ran, as near to the reactor's time as what else waits has room for."""
        grain, now, top = self._manner.grain, self._now, None if first is None else first.due
        asked = self._asked.first_after(now)
        soft = None if asked is None else asked.due
        least = self._least(step)
        choices = [step.real // grain * grain, (now // grain + 1) * grain, now + 1]
        if self._over:
            choices.insert(0, self._most(step, choices[0]))
        needed = [*(choice for choice in choices if choice >= least), least] if least > now else []
        if top is not None and not (self._over and self._manner.exact):  # (there, others may need the room)
            choices.insert(2, now + (top - now) // 2)
        choices = [*needed, *choices]  # (half of what is left may be hours: it comes after the least that is needed)
        for below in (soft, None):
            for choice in choices:
                if now < choice and (top is None or choice < top) and (below is None or choice < below):
                    entry.due = choice
                    self.moved += entry.delay is not None
                    self._advance(step, choice)
                    self._last = entry.key
                    return
        self._squeeze(entry)
        if not self._joins(entry):
            assert first is not None
            raise _conflict(first, "calls ran before a turn or a tick for which there is no room")
        self._last = entry.key

    # times

    def _advance(self, step: Step, to: int) -> None:
        step.advances, step.by = True, to - self._now
        self._before, self._now = self._now, to
        self._count += 1
        self._open = True

    def _late(self, step: Step, due: int) -> int:
        """To what time the advance goes that runs what is due then.

        Where loops go on it goes as far as what is scheduled in it needs. It goes no further than to what can't be moved, unless that
        runs next.
        """
        grain = self._manner.grain
        is_late = self._manner.exact or step.real - due > _LATE
        to = max(due, step.real // grain * grain if is_late else due)
        if self._over:
            to = max(due, self._least(step), self._most(step, to))
        if not self._turning:
            return to
        least = max(due, self._least(step))
        for choice in (self._far_enough(step, to), max(to, least), least):
            if self._is_right(step, choice):
                return choice
        first = self._fixed.first()
        return least if first is None or first.due <= due else max(due, min(least, first.due - 1))

    def _far_enough(self, step: Step, to: int) -> int:
        """The least time from this one on that all need which are run by an advance to it."""
        for _ in range(_MOST_WIDENED):
            turns = self._turns_made(step, to)
            need = max(map(_reached, turns or ()), default=to)
            if need <= to:
                break
            to = need
        return to

    def _is_right(self, step: Step, to: int) -> bool:
        """Whether the turns that are scheduled in an advance to this time are those which the reactor has scheduled."""
        turns = self._turns_made(step, to)
        return turns is not None and all(_reached(turn) <= to < _reached(turn, 1) for turn in turns)

    def _turns_made(self, step: Step, to: int) -> Optional[List[Entry]]:
        """The turns that are scheduled in an advance to this time, or None, where something else comes before what it has to run."""
        due = set(self._fixed.until(to))
        made: List[Entry] = []
        place = self._places[step]
        while True:
            other = self._steps[place]
            if other.entry is None:
                return None if due else made
            due.discard(other.entry)
            if due or other.real == step.real:
                made += [entry for entry in other.made if entry.is_turn]
            place += 1
            if place == len(self._steps) or (other.closed and due):
                return None if due else made
            if other.closed or not (due or self._steps[place].real == step.real):
                return made

    def _least(self, step: Step) -> int:
        """The time that is needed for what a step schedules: loops start then, and their next turns are as the reactor has them."""
        starts = (loop.at for loop in step.starts if not loop.is_loose)
        return max([0, *starts, *(_reached(entry) for entry in step.made if entry.is_turn), *self._after(step)])

    def _in_turn(self, step: Step) -> List[Step]:
        """The step, and those after it that the reactor has run in the same turn, with nothing from elsewhere among them."""
        found = [step]
        for other in self._steps[self._places[step] + 1 :]:
            if found[-1].closed or other.entry is None or other.real != step.real:
                break
            found.append(other)
        return found

    def _after(self, step: Step) -> Iterator[int]:
        """The times that are needed so that each tick which is scheduled in the turn is due after what runs before it."""
        if not self._over:
            return
        end = len(self._steps)
        for tick in (entry for one in self._in_turn(step) for entry in one.made):
            if tick.tick is not None:
                over = self._over.get(tick, end)
                for other in self._fixed.all():
                    place = self._over.get(other, end)
                    if place < over and self._steps[place].entry is other:
                        yield other.due - self._manner.due_in(tick.tick)

    def _most(self, step: Step, to: int) -> int:
        """The last time until this one at which what can't be moved isn't due before all that runs before it in other turns."""
        if not self._over:
            return to
        turn, end = self._in_turn(step), len(self._steps)
        last = self._places[turn[-1]]
        made = [entry for one in turn for entry in one.made]
        ticks = [(self._over.get(entry, end), self._manner.due_in(entry.tick)) for entry in made if entry.tick is not None]
        for other in self._fixed.all():
            over = self._over.get(other, end)
            if over > last:
                far = max((delay for left, delay in ticks if left <= over), default=0)
                to = min(to, other.due - (over - last) - far - 1)
        return to

    def _waited(self, entry: Entry, advance: int) -> bool:
        """Whether it waited while the advance of this number went on."""
        return entry.seen < advance or (entry.seen == advance and entry.inside)

    def _joins(self, entry: Entry) -> bool:
        """Whether the advance that goes on runs it next, by when it is recorded as due."""
        if not self._open or entry.due > self._now:
            return False
        if entry.key <= self._last != entry.after:  # it would have run before what ran last
            return False
        return entry.due > self._before or not self._waited(entry, self._count - 1)


def _next_turn(loop: Loop, now: int) -> int:
    """When the next turn of a loop is due, as the language has it."""
    return loop.start + loop.interval * ((now - loop.start) // loop.interval + 1)


def _reached(entry: Entry, more: int = 0) -> int:
    """From what time on this turn of a loop, or one so many after it, is the next one."""
    assert entry.loop is not None
    return entry.loop.reached(entry.turn + more)


def _conflict(entry: Entry, reason: str) -> Conflict:
    place = "" if entry.loop is None else entry.loop.place
    return Conflict(reason, place, "loop" if entry.tick is None else "cooperator", entry.owner)


def _checked(steps: Sequence[Step]) -> Iterator[Step]:
    """Runs the steps on a clock like that of the language, each before it is given. Raises Conflict, where that runs anything else."""
    seen, fresh = _Waiting(), _Waiting()
    now = 0
    for step in steps:
        first = seen.first()
        if first is not None and first.due <= now and first is not step.entry:
            raise _conflict(first, "something else is due")
        if step.advances:
            now += step.by
            for entry in fresh.all():
                fresh.remove(entry)
                seen.add(entry)
        first, ran = seen.first(), step.entry
        if ran is not None and (first is not ran or ran.due > now):
            raise _conflict(ran, "it isn't due yet")
        if ran is None and first is not None and first.due <= now:
            raise _conflict(first, "it is due, and something comes from elsewhere")
        if ran is not None:
            seen.remove(ran)
        for entry in step.made:
            if entry.due < now or (entry.loop is not None and entry.is_turn and entry.due != _next_turn(entry.loop, now)):
                raise _conflict(entry, "it isn't due at its time")
            (seen if entry.inside else fresh).add(entry)
        for entry, _ in step.ended:
            seen.remove(entry)
            fresh.remove(entry)
        first = seen.first()
        if step.closed and first is not None and first.due <= now:
            raise _conflict(first, "it is due, and something else happens")
        yield step
