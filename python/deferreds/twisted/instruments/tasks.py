"""The instrument of Cooperator and CooperativeTask.

The first Cooperator of a run that gets a task has no name in its script, and each further one has, where the clock of the run schedules
its ticks. What a scheduler does is known once it has scheduled the first. Until then the first task is tried: if no tick reaches the
clock, the Cooperator is recorded as the Python that it is made of.

It also notes what a Cooperator does by itself (`inner`). If no script has it as such, the run is recorded without it
(`deferreds.twisted.recording.hindsight`).
"""

from __future__ import annotations

import functools
import sys
import weakref
from typing import AbstractSet, Any, Callable, Dict, Iterator, List, NamedTuple, Optional, Tuple

from twisted.internet import task
from twisted.internet.defer import AlreadyCalledError, Deferred

from .. import grammar
from ..profile import Entry
from ..telling import Action, Line, Observer, Record, Thing, Time, observer_of
from .clock import Own, leaves_calls, own_calls, tried
from .deferreds import running_side
from .inner import Inner, OwnCall
from .pace import is_real

_Task = task.CooperativeTask
_Cooperator = task.Cooperator
_init = _Task.__init__
_pause = _Task.pause
_resume = _Task.resume
_stop = _Task.stop
_when_done = _Task.whenDone
_complete = _Task._completeWith
_work = _Task._oneWorkUnit
_make = _Cooperator.__init__
_reschedule = _Cooperator._reschedule
_tick = _Cooperator._tick
_remove = _Cooperator._removeTask
_stop_all = _Cooperator.stop
_start_all = _Cooperator.start


class Tick(NamedTuple):
    """A tick of the Cooperator: how many steps it had, whether tasks were left after it, and the event in which it ran, if that is known."""

    steps: int
    left: bool
    event: Optional[Action]
    #: whether the tick before it, after which no task was left, must have looked for the next one, by which a new round begins;
    #: or must not have, since its steps were used up. None: it may have
    before_looked: Optional[bool] = None


class Cooperating:
    """What is kept of a Cooperator of the run, or of several: one that has no tasks any more leaves its name to another of its kind."""

    def __init__(
        self,
        cooperator: Any,
        name: Optional[str] = None,
        inner: Optional[Inner] = None,
        of_turns: AbstractSet[Entry] = frozenset(),
    ) -> None:
        """`of_turns`: the entries of how tasks take turns that it can reach, which is none where they do so as Twisted has it."""
        self._cooperator = weakref.ref(cooperator)
        self.of_turns = of_turns
        self.is_fair = Entry.SKIPPED_TURN in of_turns
        #: its name, where the script names it, and where it is noted what it does by itself
        self.thing = None if name is None else Thing(name)
        self.inner = inner
        #: whether it isn't the first one of the run
        self.is_further = False
        #: the actions that make its tasks, while it has none
        self.unnamed: List[Action] = []
        self.delays: List[Time] = []
        self.ticks: List[Tick] = []
        #: the steps of the tick that goes on
        self.steps = 0
        self.in_tick = False
        self.is_stopped = False
        self.seen = False
        #: whether its scheduler isn't the clock of the run, so that its ticks are the only time there is
        self.alone = False
        self.time = 0
        #: whose turn is next, by the rule of the script; and where nobody is skipped, whether it was nobody's when a task had left
        self.place = 0
        self.is_round_over = False
        #: what the next step shows of whether the last tick has looked for another task, and whether it may have or not
        self.before_looked: Optional[bool] = None
        self.may_have_looked = True
        #: how many of its tasks haven't ended
        self.live = 0
        #: where it was made, and after how many seconds its ticks are due
        self.made_at: Any = None
        self.delay = 0.0
        #: on a Clock: the ticks that are scheduled, the last one last
        self.calls: List[OwnCall] = []
        #: its number in the notes of the run, if these are written
        self.noted_as = -1

    @property
    def cooperator(self) -> Any:
        """The program's, as long as it has that."""
        return self._cooperator()

    def step(self, watcher: Observer, stepped: Any) -> None:
        """It is the turn of this task. Notes the entry that says so, if it isn't by the rule of the script.

        One that was stopped with all others has no place.
        """
        tasks = self.cooperator._tasks
        if stepped not in tasks:
            return
        at = tasks.index(stepped)
        expected = self.place if self.place < len(tasks) else 0
        if not self.is_fair:
            self._note_round(watcher, at, expected)
        elif at != expected:
            _quirk(watcher, self, Entry.JOIN_AFTER_THE_LAST if self.is_round_over and at == 0 else Entry.SKIPPED_TURN)
        self.place, self.is_round_over, self.may_have_looked = at + 1, False, False

    def _note_round(self, watcher: Observer, at: int, expected: int) -> None:
        """Notes whether a new round has begun with the task at this place of the list, where the last round leads to another."""
        if expected == 0 and at == 0:
            return
        if self.may_have_looked and at in (0, expected):
            self.before_looked = at == 0
        elif at != expected:
            _refuse(watcher, self, "a Cooperator whose tasks took turns before the recording")

    def leaves(self, leaving: Any) -> None:
        """A task leaves the list. Where the rule is Twisted's, the place stays the same."""
        if not self.is_fair:
            return
        tasks = self.cooperator._tasks
        self.place -= tasks.index(leaving) < self.place
        if self.place >= len(tasks) - 1:
            self.is_round_over = Entry.JOIN_AFTER_THE_LAST in self.of_turns
            self.place = self.place if self.is_round_over else 0

    def end_tick(self, event: Optional[Action]) -> None:
        """A tick has ended."""
        left = bool(self.cooperator._tasks)
        self.ticks.append(Tick(self.steps, left, event, self.before_looked))
        self.in_tick, self.before_looked, self.may_have_looked = False, None, not left

    def word(self, word: str, end: str = "") -> Thing:
        """The first words of a line: those of a Cooperator with a name have another word, and the name."""
        return Word(self, word + end, f"{word}in {{}}{end}")

    def task_line(self, made: Thing) -> Line:
        """The line that a task is made."""
        return Word(self, "task ", "taskin "), made, Word(self, "", " {}")

    def takes(self, made_at: Any, delay: float) -> bool:
        """Whether it can be another Cooperator, made there, whose ticks are due after so many seconds."""
        cooperator = self.cooperator
        is_used = cooperator is not None and (cooperator._tasks or cooperator._stopped)
        is_idle = not (is_used or self.is_stopped or self.live or self.in_tick) and self.may_have_looked
        return is_idle and self.made_at == made_at and self.delay == delay

    def become(self, cooperator: Any) -> None:
        """Is another Cooperator from here on."""
        before = self.cooperator
        if before is not None:
            before._dv_cooperating = None
        self._cooperator = weakref.ref(cooperator)

    def keep(self, scheduled: Any) -> None:
        """A Clock has scheduled its tick."""
        if self.calls:
            self.calls[-1].scheduled = weakref.ref(scheduled)

    def name_it(self, thing: Thing) -> None:
        """Has a name from the beginning of the run on."""
        self.thing = thing
        thing.declared, thing.inner = True, self.inner
        for action in self.unnamed:
            action[0] = "cooperateIn"
            action.insert(2, thing)
        self.unnamed.clear()


class Word(Thing):
    """A part of a line, which is another one where the Cooperator has a name by the time that the line is said."""

    def __init__(self, cooperating: Cooperating, unnamed: str, named: str) -> None:
        super().__init__(unnamed)
        self.inner = cooperating.inner
        self.cooperating = cooperating
        self.named = named

    @property
    def name(self) -> str:
        """The part."""
        thing = self.cooperating.thing
        return self.own_name if thing is None else self.named.format(thing.name)


class Cooperators:
    """The Cooperators of a run that are recorded as such: the one that has no name, and those that have."""

    def __init__(self) -> None:
        self.first: Optional[Cooperating] = None
        self.further: List[Cooperating] = []
        #: what further ones do by themselves, each of which is recorded by name, or none is
        self.inner = Inner("cooperator")

    def all(self) -> List[Cooperating]:
        """All of them."""
        return [*filter(None, (self.first,)), *self.further]

    def taking(self, made_at: Any, delay: float) -> Optional[Cooperating]:
        """One whose name a Cooperator may have that was made there, and whose ticks are due after so many seconds."""
        return next((one for one in self.further if one.takes(made_at, delay)), None)


class Known:
    """A task that is recorded: its name, the bodies of its steps, its Cooperator, and the Deferred that its step gave last."""

    def __init__(self, thing: Thing, steps: Any, cooperating: Cooperating) -> None:
        self.thing = thing
        thing.inner = cooperating.inner
        self.steps = steps
        self.cooperating = cooperating
        self.held_by: Optional[Deferred[Any]] = None
        #: the Deferreds that hold it, each with the bodies of its pair, where these are noted
        self.pairs: List[Tuple[Record, Tuple[Any, Any]]] = []


def _known(watcher: Optional[Observer], cooperative: Any) -> Optional[Known]:
    found = cooperative._dv_task
    return found[1] if found is not None and found[0] is watcher else None


def _cooperating(watcher: Optional[Observer], cooperator: Any) -> Optional[Cooperating]:
    """What is kept of this Cooperator, if it is recorded as such."""
    found = cooperator._dv_cooperating
    return found[1] if found is not None and found[0] is watcher else None


def _cooperators(watcher: Observer) -> Cooperators:
    """The Cooperators of the run."""
    if watcher.cooperator is None:
        watcher.cooperator = Cooperators()
    found: Cooperators = watcher.cooperator
    return found


def know(watcher: Observer, cooperating: Cooperating) -> None:
    """Has a Cooperator be recorded as such: one that has a name, or the first."""
    known = _cooperators(watcher)
    if cooperating.thing is None:
        known.first = cooperating
    else:
        known.further.append(cooperating)
    cooperating.cooperator._dv_cooperating = (watcher, cooperating)


# what a Cooperator does by itself


def _act(watcher: Observer, cooperating: Cooperating, action: Action, call: Callable[..., Any], *args: Any) -> Any:
    """Performs a call of the program's on a Cooperator, or on a task of one."""
    inner = cooperating.inner
    return watcher.act(action, call, *args) if inner is None else inner.act(watcher, action, call, *args)


def _in_pair(watcher: Observer, known: Known, side: int, call: Callable[..., Any], *args: Any) -> Any:
    """Performs what a side of the pair does by which a Deferred holds a task."""
    inner = known.cooperating.inner
    if inner is None or not known.pairs:
        return call(*args)
    held_by = running_side() if len(known.pairs) > 1 else None
    place = next((place for place, (record, _) in enumerate(known.pairs) if record is held_by), 0)
    _, pair = known.pairs.pop(place)
    return inner.in_pair(watcher, pair[side], call, *args)


def _quirk(watcher: Observer, cooperating: Cooperating, entry: Entry) -> None:
    """Twisted does with a Cooperator here what an entry of the profile names."""
    if cooperating.inner is not None:
        cooperating.inner.quirk(watcher, entry)
    watcher.quirk(entry)


def _refuse(watcher: Observer, cooperating: Cooperating, reason: str) -> None:
    """No script can say this of a Cooperator that it has as such."""
    watcher.problem(reason, "cooperator", cooperating.inner)


def _refuse_error(watcher: Observer, cooperating: Cooperating, reason: str) -> None:
    """A further Cooperator raises an error, which no script says that has it by name.

    If an entry of the profile was reached by now, that explains why such a script prints something else from there on.
    """
    if cooperating.is_further and not watcher.quirks:
        _refuse(watcher, cooperating, reason)


def _note_scheduled(watcher: Observer, cooperating: Cooperating, delay: Time) -> None:
    """A tick is scheduled by the clock of the run."""
    cooperating.delays.append(delay)
    if cooperating.inner is not None and watcher.pace is None:
        cooperating.calls.append(cooperating.inner.schedule(watcher, cooperating.made_at, delay))


def _cancelling(watcher: Observer, cooperating: Cooperating, call: Callable[[], object]) -> None:
    """Calls what may cancel a tick that is scheduled on a Clock, and notes whether it has."""
    call()
    for waiting in cooperating.calls:
        if cooperating.inner is not None and not waiting.waits:
            cooperating.calls.remove(waiting)
            cooperating.inner.cancel(watcher, waiting)
            return


# making


def _instrumented_making(self: Any, *args: Any, **kwargs: Any) -> None:
    _make(self, *args, **kwargs)
    watcher = observer_of("cooperator")
    if watcher is not None:
        self._dv_made_at = watcher.spot()


def _made_at(watcher: Observer, cooperator: Any) -> Any:
    """Where a Cooperator was made; one from before the recording, where it is met."""
    return cooperator._dv_made_at or watcher.spot()


def _instrumented_init(self: Any, iterator: Iterator[Any], cooperator: Any) -> None:
    watcher = observer_of("cooperator")
    if watcher is None or watcher.quiet:
        _init(self, iterator, cooperator)
        return
    cooperating = _cooperating(watcher, cooperator) or _begun(watcher, cooperator)
    if cooperating is None:
        _try(watcher, self, iterator, cooperator)
        return
    known = Known(watcher.thing("task"), watcher.new_body("steps", cooperating.inner is not None), cooperating)
    action = Action(["cooperate", known.thing, known.steps])
    _bind(watcher, cooperating, self, iterator, known, action)
    _act(watcher, cooperating, action, _tell_made, watcher, cooperating, known, self, iterator)


def _bind(
    watcher: Observer, cooperating: Cooperating, cooperative: Any, iterator: Iterator[Any], known: Known, action: Action
) -> None:
    """A task is made in a Cooperator."""
    cooperative._dv_task = (watcher, known)
    watcher.texts.bind(iterator, known.thing, cooperative)
    cooperating.live += 1
    cooperating.unnamed.append(action)
    if cooperating.thing is not None:
        cooperating.name_it(cooperating.thing)


def _tell_made(
    watcher: Observer, cooperating: Cooperating, known: Known, cooperative: Any, iterator: Iterator[Any]
) -> None:
    watcher.tell(*cooperating.task_line(known.thing))
    _init(cooperative, iterator, cooperating.cooperator)


def _begun(watcher: Observer, cooperator: Any) -> Optional[Cooperating]:
    """A Cooperator that is met, where what its scheduler does needn't be known: the first, and one that is stopped already."""
    if cooperator._tasks or _is_plain(watcher, cooperator):
        return None
    if cooperator._stopped:
        return _begun_stopped(watcher, cooperator)
    if not cooperator._started or (watcher.cooperator is not None and watcher.cooperator.first is not None):
        return None
    first = Cooperating(cooperator)
    if watcher.notes_inner:
        first.made_at = _made_at(watcher, cooperator)
        first.inner = Inner("cooperator")
    know(watcher, first)
    return first


def _begun_stopped(watcher: Observer, cooperator: Any) -> Optional[Cooperating]:
    """A Cooperator that was stopped before it had a task is stopped where it is met first."""
    if not _has_room(watcher):
        return None
    cooperating = _named(watcher, cooperator, _made_at(watcher, cooperator))
    cooperating.is_stopped = True
    _act(watcher, cooperating, Action(["stopCooperator", cooperating.thing]), watcher.tell, *_stop_line(cooperating))
    return cooperating


def _named(watcher: Observer, cooperator: Any, made_at: Any) -> Cooperating:
    """A Cooperator gets a name."""
    cooperating = Cooperating(cooperator, inner=_cooperators(watcher).inner)
    cooperating.name_it(watcher.thing("cooperator", made_at))
    cooperating.made_at, cooperating.is_further = made_at, True
    know(watcher, cooperating)
    return cooperating


def _has_room(watcher: Observer) -> bool:
    """Whether a script may have one more Cooperator by name, and one beside that, which the first may be later."""
    return watcher.cooperator is None or len(watcher.cooperator.further) < grammar.MOST_COOPERATORS - 1


def _is_plain(watcher: Observer, cooperator: Any) -> bool:
    """Whether it is recorded as the Python that it is made of."""
    found = cooperator._dv_cooperating
    return found is not None and found[0] is watcher and found[1] is None


def _try(watcher: Observer, cooperative: Any, iterator: Iterator[Any], cooperator: Any) -> None:
    """A task is made in a Cooperator that isn't known: it is, where the clock of the run schedules its tick after some time."""
    is_fresh = cooperator._started and not cooperator._tasks and not _is_plain(watcher, cooperator)
    if not is_fresh or not _has_room(watcher):
        _init(cooperative, iterator, cooperator)
        return
    trying = _Trying(watcher, cooperative, iterator, cooperator)
    watcher.locate_action(trying.action, 2)
    tried.append(trying)
    try:
        _init(cooperative, iterator, cooperator)
    finally:
        tried.remove(trying)
    if not trying.is_begun:
        cooperator._dv_cooperating = (watcher, None)


class _Trying:
    """The first task of a Cooperator that may get a name."""

    def __init__(self, watcher: Observer, cooperative: Any, iterator: Iterator[Any], cooperator: Any) -> None:
        self._watcher = watcher
        self._cooperative = cooperative
        self._iterator = iterator
        self._cooperator = cooperator
        self._spot = watcher.spot()
        self._steps = watcher.new_body("steps", True)
        self.action = Action(["cooperate", None, self._steps])
        self.is_begun = False

    def takes(self, watcher: Observer, clock: Any, delay: float, call: Callable[..., Any]) -> bool:
        """Whether this is the tick, which the clock of the run is asked for, and which a script may have."""
        is_tick = getattr(call, "__func__", None) is _instrumented_tick and getattr(call, "__self__", None) is self._cooperator
        return is_tick and watcher is self._watcher and not self.is_begun and not watcher.acting and (delay > 0 or is_real(clock))

    def begin(self, delay: float, schedule: Callable[[], Any]) -> Any:
        """The task is recorded, and then the tick is scheduled."""
        self.is_begun = True
        watcher = self._watcher
        made_at = _made_at(watcher, self._cooperator)
        cooperating = _cooperators(watcher).taking(made_at, delay)
        if cooperating is None:
            cooperating = _named(watcher, self._cooperator, made_at)
            cooperating.delay = delay
        else:
            cooperating.become(self._cooperator)
            self._cooperator._dv_cooperating = (watcher, cooperating)
        known = Known(watcher.thing("task", self._spot), self._steps, cooperating)
        self.action[1] = known.thing
        _bind(watcher, cooperating, self._cooperative, self._iterator, known, self.action)
        return _act(watcher, cooperating, self.action, _tell_tried, watcher, cooperating.task_line(known.thing), schedule)


def _tell_tried(watcher: Observer, line: Line, schedule: Callable[[], Any]) -> Any:
    watcher.tell(*line)
    return schedule()


# ticks


def _own_tick(watcher: Observer, call: Callable[..., Any]) -> Optional[Own]:
    """Twisted schedules a tick of a Cooperator that is recorded as such."""
    if getattr(call, "__func__", None) is not _instrumented_tick:
        return None
    cooperating = _cooperating(watcher, getattr(call, "__self__"))
    if cooperating is None:
        return None
    cooperating.seen = True
    further, inner = cooperating.is_further, cooperating.inner
    line = (cooperating.word("later tick", " "),)
    note = functools.partial(_note_scheduled, watcher, cooperating)
    return Own(line, lambda pace, delay: pace.tick(delay, further, inner), note, cooperating.keep)


def _instrumented_reschedule(self: Any) -> None:
    watcher = observer_of("cooperator")
    cooperating = _cooperating(watcher, self)
    wanted = self._started and self._delayedCall is None and self._tasks
    if watcher is None or cooperating is None or not wanted:
        _reschedule(self)
        return
    if cooperating.is_fair and cooperating.in_tick and sys._getframe(1).f_code is not _tick.__code__:
        _quirk(watcher, cooperating, Entry.TICK_SCHEDULED_IN_A_TICK)
    cooperating.seen = False
    try:
        _reschedule(self)
    except BaseException:
        _refuse_error(watcher, cooperating, "a scheduler of a Cooperator raises an error")
        raise
    if not cooperating.seen:
        _tell_tick_alone(watcher, cooperating)


def _tell_tick_alone(watcher: Observer, cooperating: Cooperating) -> None:
    """A tick was scheduled by something that isn't the clock of the run: it is due 1 from now."""
    cooperating.alone = True
    if cooperating.inner is not None:
        cooperating.inner.refuse("a Cooperator whose ticks are scheduled by something other than the clock of the run")
    if watcher.has_had_clock:
        _refuse(watcher, cooperating, "a Cooperator beside a Clock that doesn't schedule it")
    if cooperating.cooperator._delayedCall is None:
        _refuse(watcher, cooperating, "a scheduler of a Cooperator that gives nothing to cancel")
    cooperating.delays.append(Time(1))
    watcher.tell(cooperating.word("later tick", " "), Time(cooperating.time + 1))


def _instrumented_tick(self: Any) -> None:
    watcher = observer_of("cooperator")
    cooperating = _cooperating(watcher, self)
    if watcher is None or cooperating is None:
        _tick(self)
    elif watcher.quiet:
        if cooperating.alone:
            _refuse(watcher, cooperating, "a tick inside Twisted")
        _run_tick(watcher, cooperating)
    else:
        if cooperating.inner is not None:
            cooperating.inner.refuse("a tick that the program itself runs")
        if watcher.frame is not watcher.top:
            _refuse(watcher, cooperating, "a tick inside a body")
        if not cooperating.alone:
            _refuse(watcher, cooperating, "a tick that the program itself runs")
        watcher.act(Action(["advance", Time(1)]), _run_tick, watcher, cooperating)


def _run_tick(watcher: Observer, cooperating: Cooperating) -> None:
    if cooperating.alone:
        cooperating.time += 1
        watcher.tell("advance ", Time(cooperating.time))
    watcher.tell(cooperating.word("tick"))
    cooperating.steps, cooperating.in_tick = 0, True
    event = watcher.happening()
    try:
        if event is None or cooperating.inner is None:
            _tick(cooperating.cooperator)
        else:
            _run_noted(watcher, cooperating, cooperating.inner, event)
    finally:
        cooperating.end_tick(event)


def _run_noted(watcher: Observer, cooperating: Cooperating, inner: Inner, event: Action) -> None:
    """Runs a tick, whose line was the last, and notes what the Cooperator does in it."""
    calls, clock = cooperating.calls, watcher.clock
    tick = functools.partial(_tick, cooperating.cooperator)
    try:
        if not calls:
            inner.run_in_event(watcher, event, cooperating.made_at, tick)
        else:
            call = min(calls, key=lambda call: call.due)
            calls.remove(call)
            inner.run_call(watcher, call, tick)
    except BaseException:
        _refuse_error(watcher, cooperating, "a tick raises an error")
        if watcher.pace is None and clock is not None and leaves_calls(watcher, clock):
            inner.quirks.append((len(watcher.parts), Entry.ERROR_LEAVES_ADVANCE))
        raise


def _instrumented_remove(self: Any, cooperative: Any) -> None:
    watcher = observer_of("cooperator")
    cooperating = _cooperating(watcher, self)
    if watcher is not None and cooperating is not None:
        if cooperative not in self._tasks:
            _quirk(watcher, cooperating, Entry.TASK_ENDED_TWICE)
        else:
            cooperating.leaves(cooperative)
    if watcher is None or cooperating is None:
        _remove(self, cooperative)
    else:
        _cancelling(watcher, cooperating, functools.partial(_remove, self, cooperative))


# steps


class _Asked:
    """The iterator of a task, for one step: what its next body returns, run as a body of the run."""

    def __init__(self, watcher: Observer, known: Known, iterator: Iterator[Any]) -> None:
        self.watcher = watcher
        self.known = known
        self.iterator = iterator
        self.ended = False

    def __next__(self) -> Any:
        watcher = self.watcher
        cooperating = self.known.cooperating
        body, inner = watcher.begin_step(self.known.steps), cooperating.inner
        if inner is not None:
            inner.note(watcher, body)
        result = watcher.perform(body, "step", None, self._ask)
        if self.ended:
            watcher.end_steps(self.known.steps, body, inner)
            raise StopIteration
        self.known.held_by = result if isinstance(result, Deferred) else None
        return result

    def _ask(self) -> Any:
        try:
            return next(self.iterator)
        except StopIteration:
            self.ended = True
            return None


def _instrumented_work(self: Any) -> None:
    watcher = observer_of("cooperator")
    known = _known(watcher, self)
    cooperating = _cooperating(watcher, self._cooperator)
    if watcher is None or known is None or cooperating is None:
        _work(self)
        return
    cooperating.steps += 1
    cooperating.step(watcher, self)
    watcher.tell("step ", known.thing)
    iterator = self._iterator
    self._iterator = _Asked(watcher, known, iterator)
    try:
        _work(self)
    finally:
        self._iterator = iterator


def _instrumented_complete(self: Any, state: Any, result: Any) -> None:
    watcher = observer_of("cooperator")
    known = _known(watcher, self)
    if isinstance(result, _Asked):
        result = result.iterator
    if watcher is None or known is None:
        _complete(self, state, result)
    elif sys._getframe(1).f_code.co_name == _FAILS_LATER:
        _in_pair(watcher, known, 1, _tell_ended, watcher, known, self, state, result)
    else:
        _tell_ended(watcher, known, self, state, result)


#: the name of Twisted's own side by which a task fails that a Deferred holds
_FAILS_LATER = "failLater"


def _tell_ended(watcher: Observer, known: Known, cooperative: Any, state: Any, result: Any) -> None:
    if isinstance(state, task.TaskDone):
        watcher.texts.bind(result, known.thing, cooperative)  # other tasks may have the same iterator
    cooperating = known.cooperating
    inner = cooperating.inner
    if cooperative._completionState is not None:
        _quirk(watcher, cooperating, Entry.TASK_ENDED_TWICE)
    elif _cooperating(watcher, cooperative._cooperator) is not None:
        cooperating.live -= 1
    watcher.tell("end ", known.thing, " ", watcher.texts.outcome(result))
    try:
        if inner is None:
            _complete(cooperative, state, result)
        else:
            inner.fire_all(watcher, cooperative, result, _complete, state, result)
    except AlreadyCalledError:
        _quirk(watcher, cooperating, Entry.REFUSED_WHEN_DONE)
        raise


# actions on tasks


def _instrumented_pause(self: Any) -> None:
    watcher = observer_of("cooperator")
    known = _known(watcher, self)
    if watcher is None or known is None:
        _pause(self)
    elif watcher.quiet:
        _hold(watcher, self, known)
    else:
        _act(watcher, known.cooperating, Action(["pauseTask", known.thing]), _tell_paused, watcher, self, known)


def _tell_paused(watcher: Observer, cooperative: Any, known: Known) -> None:
    if cooperative._completionState is None:
        watcher.tell("pausetask ", known.thing)
    _pause(cooperative)


def _hold(watcher: Observer, cooperative: Any, known: Known) -> None:
    """Twisted pauses a task whose step gave a Deferred."""
    if cooperative._completionState is not None:
        _quirk(watcher, known.cooperating, Entry.TASK_ENDED_TWICE)
        _pause(cooperative)
        return
    held_by, known.held_by = known.held_by, None
    if held_by is None:
        _pause(cooperative)
        return
    record = watcher.record(held_by)
    watcher.tell("hold ", known.thing, " ", record)
    _pause(cooperative)
    inner = known.cooperating.inner
    if inner is not None:
        pair = watcher.new_body("callback", True), watcher.new_body("callback", True)
        known.pairs.append((record, pair))
        inner.note(watcher, Action(["addCallbacks", record, *pair]))


def _instrumented_resume(self: Any) -> None:
    watcher = observer_of("cooperator")
    known = _known(watcher, self)
    if watcher is None or known is None:
        _resume(self)
    elif watcher.quiet:
        if self._completionState is None:
            _in_pair(watcher, known, 0, _tell_resumed, watcher, self, known)
        else:
            _quirk(watcher, known.cooperating, Entry.HOLD_ON_AN_ENDED_TASK)
            _in_pair(watcher, known, 0, _resume, self)
    else:
        _act(watcher, known.cooperating, Action(["resumeTask", known.thing]), _tell_resumed, watcher, self, known)


def _tell_resumed(watcher: Observer, cooperative: Any, known: Known) -> None:
    if cooperative._pauseCount != 0:
        watcher.tell("resumetask ", known.thing)
    _resume(cooperative)


def _instrumented_stop(self: Any) -> None:
    watcher = observer_of("cooperator")
    known = _known(watcher, self)
    if watcher is None or known is None or watcher.quiet:
        _stop(self)
    else:
        _act(watcher, known.cooperating, Action(["stopTask", known.thing]), _stop, self)


def _instrumented_when_done(self: Any) -> Any:
    watcher = observer_of("cooperator")
    known = _known(watcher, self)
    if watcher is None or known is None or watcher.quiet:
        return _when_done(self)
    return _act_when_done(watcher, self, known)


def _act_when_done(watcher: Observer, cooperative: Any, known: Known) -> Any:
    action, inner = Action(["whenDone", None, known.thing]), known.cooperating.inner

    def made(deferred: Deferred[Any], record: Record) -> None:
        action[1] = record
        watcher.tell("whendone ", known.thing, " ", record)
        if inner is not None and cooperative._completionState is not None:
            inner.fire(watcher, deferred, cooperative._completionResult)

    def ask() -> Any:
        watcher.expect(made)
        return _when_done(cooperative)

    return _act(watcher, known.cooperating, action, ask)


# actions on whole Cooperators


def _stop_line(cooperating: Cooperating) -> Line:
    """The line that a Cooperator is stopped."""
    assert cooperating.thing is not None
    return "stopcooperator ", cooperating.thing


def _instrumented_stop_all(self: Any) -> None:
    watcher = observer_of("cooperator")
    cooperating = _cooperating(watcher, self)
    if watcher is None or cooperating is None:
        _stop_all(self)
        return
    if watcher.quiet:
        _refuse(watcher, cooperating, "Cooperator.stop inside Twisted")
        if cooperating.inner is not None:
            cooperating.inner.refuse("Cooperator.stop inside Twisted")
        _stop_all(self)
        return
    if cooperating.thing is None:
        cooperating.name_it(watcher.thing("cooperator", _made_at(watcher, self)))
    _act(watcher, cooperating, Action(["stopCooperator", cooperating.thing]), _tell_stopped, watcher, cooperating)


def _tell_stopped(watcher: Observer, cooperating: Cooperating) -> None:
    watcher.tell(*_stop_line(cooperating))
    cooperating.is_stopped = True
    if len(cooperating.cooperator._tasks) > 1:
        _quirk(watcher, cooperating, Entry.TASK_LEFT_BY_STOP)
    _cancelling(watcher, cooperating, functools.partial(_stop_all, cooperating.cooperator))


def _instrumented_start_all(self: Any) -> None:
    if self._stopped or not self._started:
        watcher = observer_of("cooperator")
        cooperating = _cooperating(watcher, self)
        if watcher is not None and not watcher.quiet and cooperating is not None:
            _refuse(watcher, cooperating, "Cooperator.start")
    _start_all(self)


def install() -> None:
    """Puts the instrument into both classes."""
    of_tasks: Dict[str, Callable[..., Any]] = {
        "__init__": _instrumented_init,
        "_oneWorkUnit": _instrumented_work,
        "_completeWith": _instrumented_complete,
        "pause": _instrumented_pause,
        "resume": _instrumented_resume,
        "stop": _instrumented_stop,
        "whenDone": _instrumented_when_done,
    }
    of_cooperators: Dict[str, Callable[..., Any]] = {
        "__init__": _instrumented_making,
        "_reschedule": _instrumented_reschedule,
        "_tick": _instrumented_tick,
        "_removeTask": _instrumented_remove,
        "stop": _instrumented_stop_all,
        "start": _instrumented_start_all,
    }
    setattr(_Task, "_dv_task", None)  # an object whose `__dict__` is asked for is slower from then on
    setattr(_Cooperator, "_dv_cooperating", None)
    setattr(_Cooperator, "_dv_made_at", None)
    for name, instrument in of_tasks.items():
        setattr(_Task, name, instrument)
    for name, instrument in of_cooperators.items():
        setattr(_Cooperator, name, instrument)
    own_calls.append(_own_tick)
