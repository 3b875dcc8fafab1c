"""What objects of Twisted's do by themselves, noted so that a run can be recorded without them.

A Cooperator adds a pair to a Deferred that a step gave, and fires the Deferreds of `whenDone`. A loop has `maybeDeferred` call its function,
adds two pairs to what that gives, schedules and cancels its turns, and fires its Deferred. On a Clock a Cooperator also schedules and cancels
its ticks. A turn is a delayed call if no loop is recorded, and so is such a tick. All this is noted as actions: in the event of a tick or
a turn or in its delayed call, in the action by which the program has the object do that, or in the side of a pair.
"""

from __future__ import annotations

import weakref
from typing import Any, Callable, Iterator, List, NamedTuple, Optional, Set, Tuple

from ..profile import Entry
from ..telling import Action, Advance, Observer, Record, Thing, Time
from ..texts import Outcome

#: after how many parts of lines what was done: an action, the body of a step, a turn, or a delayed call that was scheduled or cancelled
Notes = List[Tuple[int, Any]]

#: how many parts of a line are to be those of a delayed call: one where the object is named in the first of them, or else two
_WORDS = {"loop": 2, "cooperator": 1}


class OwnCall:
    """What an object schedules itself, which is a delayed call if the object isn't recorded. Little is kept of each: there may be many."""

    __slots__ = ("delay", "due", "waiting", "scheduled", "scheduled_at", "ran_at", "cancelled_at", "notes", "raises", "noted_as")

    def __init__(self, delay: Time, due: float, waiting: Any, scheduled_at: int) -> None:
        self.delay = delay
        self.due = due
        #: on a real reactor, what waits; and what refers to what the clock has scheduled, as long as that waits
        self.waiting = waiting
        self.scheduled: Optional["weakref.ReferenceType[Any]"] = None
        #: before which parts of lines it was scheduled, has run and was cancelled
        self.scheduled_at = scheduled_at
        self.ran_at: Optional[int] = None
        self.cancelled_at: Optional[int] = None
        #: what was done in it, and the END by which it has ended, where it raised an error
        self.notes: Notes = []
        self.raises: Any = None
        #: its number in the notes of the run, if these are written
        self.noted_as = -1

    @property
    def waits(self) -> bool:
        """Whether what the Clock has scheduled waits. If that is gone, it was cancelled."""
        scheduled = None if self.scheduled is None else self.scheduled()
        return scheduled is not None and bool(scheduled.active())


class Cancelled(NamedTuple):
    """Among what was noted: that what an object has scheduled itself was cancelled."""

    call: OwnCall


class Side(NamedTuple):
    """A side of the pair of a Deferred that holds a task has run: the run of its body, and what was done in it."""

    run: Any
    notes: Notes


class TurnSide:
    """A side of Twisted's own of a turn's Deferred has run: before which part of lines its body begins, and what was done in it."""

    __slots__ = ("ran_at", "given", "notes", "raises")

    def __init__(self, ran_at: int, given: Outcome) -> None:
        self.ran_at = ran_at
        self.given = given
        self.notes: Notes = []
        self.raises: Any = None


class Turn:
    """A turn of a loop: the number of the run of its body, and the two pairs that the loop adds to its Deferred.

    Little is kept of each, since there may be many.
    """

    __slots__ = ("body", "number", "began_at", "record", "named_at", "added_at", "sides", "noted_as")

    def __init__(self, body: Any, began_at: int) -> None:
        self.body = body
        self.number = len(body.runs)
        self.began_at = began_at
        #: its Deferred; where that is one that the program has given: before which part of lines it gets the name
        self.record: Optional[Record] = None
        self.named_at: Optional[int] = None
        #: before which parts of lines its pairs were added, and the sides that have run, each with which pair it is of
        self.added_at: Tuple[int, ...] = ()
        self.sides: Tuple[Tuple[int, TurnSide], ...] = ()
        #: its number in the notes of the run, if these are written
        self.noted_as = -1

    def side(self, pair: int) -> Optional[TurnSide]:
        """The side of a pair, if it has run."""
        return next((side for number, side in self.sides if number == pair), None)


#: how many parts the lines of a delayed call and of the advance that runs it have
_PARTS_OF_CALL = 9


class TickError:
    """An error that leaves a tick on a real reactor. Where no Cooperator is recorded, a delayed call raises it that is due at once."""

    def __init__(self, watcher: Observer, event: Action, error: BaseException) -> None:
        self.event = event
        self.thing = Thing("")
        self.waiting = watcher.pace.hold_place()
        body = watcher.new_body("call")
        watcher.end_body(watcher.begin_body(body, "call", None), error, None, None)
        self.action = Action(["later", self.thing, self.waiting.delay, body])
        self.advance = Advance()
        #: before which part of lines its lines have their place
        self.at = len(watcher.parts)
        watcher.parts.extend([""] * _PARTS_OF_CALL)

    def events(self) -> List[Tuple[Action, int]]:
        """The events by which it is raised, and before which part of lines each begins."""
        return [(self.action, self.at), (self.advance, self.at + len(self._later()))]

    def put_lines(self, parts: List[Any], preceding: int) -> None:
        """Puts its lines into their place, before which so many more parts of lines are."""
        begin = self.at + preceding
        parts[begin : begin + _PARTS_OF_CALL] = [*self._later(), self.advance, "call ", self.thing, None]

    def _later(self) -> List[Any]:
        return ["later call ", self.thing, " ", self.waiting.due, None]


class _Noting(List[Any]):
    """Deferreds of `whenDone`, each of which is noted where Twisted comes to it in order to fire it."""

    def __init__(self, deferreds: List[Any], note: Callable[[Any], object]) -> None:
        super().__init__(deferreds)
        self._note = note

    def __iter__(self) -> Iterator[Any]:
        for deferred in super().__iter__():
            self._note(deferred)
            yield deferred


class Inner:
    """What an object of Twisted's does by itself, or several that are recorded as such together, or not at all."""

    def __init__(self, kind: str, made_at: Any = None) -> None:
        """`kind`: that of objects which may be recorded as what they are made of. `made_at`: where what it makes is named after."""
        self.kind = kind
        self.made_at = made_at
        #: the runs of bodies in which the program has used one
        self.used_in: Set[Any] = set()
        #: what was done that can't be noted, if anything was
        self.unclear = ""
        #: what was scheduled, with where what has scheduled it was made
        self.calls: List[Tuple[OwnCall, Any]] = []
        #: where Twisted does with one what an entry of the profile names, if it is recorded as such, and if it isn't
        self.quirks_as_such: List[Tuple[int, Entry]] = []
        self.quirks: List[Tuple[int, Entry]] = []
        #: the sides of pairs that have run, the turns, and the errors of ticks on a real reactor
        self.sides: List[Side] = []
        self.turns: List[Turn] = []
        #: the turn whose body runs, or whose pairs are added
        self.turn: Optional[Turn] = None
        self.errors: List[Tuple[TickError, Any]] = []
        self._notes: Optional[Notes] = None
        #: its number in the notes of the run, and what of it isn't in them for good, if these are written
        self.noted_as = -1
        self.unsettled: Any = None

    @property
    def words(self) -> int:
        """How many parts of a line that it logs are to be those of a delayed call, if it isn't recorded as such."""
        return _WORDS[self.kind]

    def forget(self) -> None:
        """Keeps nothing of what was noted."""
        self.used_in.clear()
        for kept in (self.calls, self.quirks_as_such, self.quirks, self.sides, self.turns, self.errors):
            kept.clear()  # type: ignore[attr-defined]

    def refuse(self, what: str) -> None:
        """Something was done that can't be noted."""
        self.unclear = self.unclear or what

    def quirk(self, watcher: Observer, entry: Entry) -> None:
        """Twisted does here what an entry of the profile names, if the object is recorded as such."""
        self.quirks_as_such.append((len(watcher.parts), entry))
        watcher.quirks_of.append((self, entry))
        watcher.has_noted(self)

    def note(self, watcher: Observer, what: Any) -> None:
        """Notes an action, the body of a step, a turn, or what was scheduled or cancelled."""
        if self._notes is None:
            self.refuse(f"Twisted itself uses a {self.kind.replace('cooperator', 'Cooperator')}")
        else:
            self._notes.append((len(watcher.parts), what))
        watcher.has_noted(self)

    def act(self, watcher: Observer, action: Action, call: Callable[..., Any], *args: Any) -> Any:
        """Performs a call of the program's on the object."""
        self.used_in.add(watcher.frame)
        watcher.has_noted(self)
        return watcher.act(action, self._within_action, watcher, action, call, *args)

    def _within_action(self, watcher: Observer, action: Action, call: Callable[..., Any], *args: Any) -> Any:
        try:
            return self.within(action, call, *args)
        except BaseException as error:
            action.raises = watcher.raising(error)
            raise

    def within(self, action: Action, call: Callable[..., Any], *args: Any) -> Any:
        """Has what is done be noted in an action, while this is called."""
        action.inner, action.inner_of = [], self
        return self._within(action.inner, call, *args)

    def _within(self, notes: Notes, call: Callable[..., Any], *args: Any) -> Any:
        before, self._notes = self._notes, notes
        try:
            return call(*args)
        finally:
            self._notes = before

    # Deferreds

    def fire(self, watcher: Observer, deferred: Any, result: object) -> Action:
        """Notes that a Deferred is fired now."""
        action = watcher.firing(watcher.record(deferred), result, watcher.texts.outcome(result))
        self.note(watcher, action)
        if watcher.frame.kind != "inline":
            watcher.parts.append(action)
        return action

    def fire_by(self, watcher: Observer, deferred: Any, result: object, call: Callable[..., Any], *args: Any) -> Any:
        """Calls what fires a Deferred last, and notes that; what is raised is the error of that."""
        fired = self.fire(watcher, deferred, result)
        try:
            return call(*args)
        except BaseException as error:
            watcher.end_inner(fired, error)
            raise

    def fire_all(self, watcher: Observer, cooperative: Any, result: object, call: Callable[..., Any], *args: Any) -> None:
        """Calls what ends a task, and notes which Deferreds that fires. What it raises is the error of the last one, if it fires any."""
        fired: List[Action] = []
        deferreds = cooperative._deferreds
        cooperative._deferreds = _Noting(deferreds, lambda deferred: fired.append(self.fire(watcher, deferred, result)))
        try:
            call(cooperative, *args)
        except BaseException as error:
            if fired:
                watcher.end_inner(fired[-1], error)
            raise
        finally:
            cooperative._deferreds = deferreds

    def in_pair(self, watcher: Observer, body: Any, call: Callable[..., Any], *args: Any) -> Any:
        """Performs what a side of a pair does, which has this body."""
        side = Side(watcher.begin_body(body, "callback", None), [])
        watcher.parts.append(body)
        side.run.end = ["return", None]
        self.sides.append(side)
        watcher.has_noted(self)
        try:
            return self._within(side.notes, call, *args)
        except BaseException as error:
            side.run.end = watcher.raising(error)
            raise

    # turns

    def run_turn(self, watcher: Observer, body: Any, call: Callable[..., Any], *args: Any) -> Any:
        """Runs a turn of a loop, which is a run of this body. Its parts of lines are the next."""
        outer, self.turn = self.turn, Turn(body, len(watcher.parts))
        self.note(watcher, self.turn)
        self.turns.append(self.turn)
        try:
            return call(*args)
        finally:
            self.turn = outer

    @property
    def is_between_turns(self) -> bool:
        """Whether no turn goes on, or waits for a Deferred."""
        return not self.turns or bool(self.turns[-1].sides)

    def in_side(self, watcher: Observer, turn: Turn, pair: int, given: Outcome, call: Callable[..., Any], *args: Any) -> Any:
        """Performs what a side does of a pair of a turn. A line that its body runs has a place."""
        side = TurnSide(len(watcher.parts), given)
        turn.sides += ((pair, side),)
        watcher.has_noted(self)
        watcher.parts.append("")
        try:
            return self._within(side.notes, call, *args)
        except BaseException as error:
            side.raises = watcher.raising(error)
            raise

    # ticks

    def run_in_event(self, watcher: Observer, event: Action, made_at: Any, tick: Callable[[], object]) -> None:
        """Runs a tick on a real reactor, of a Cooperator that was made there."""
        try:
            self.within(event, tick)
        except BaseException as error:
            if watcher.pace is not None and not fails_inside(event.inner):
                watcher.has_noted(self)
                self.errors.append((TickError(watcher, event, error), made_at))
            raise

    # what is scheduled

    def schedule(self, watcher: Observer, made_at: Any, delay: Time, waiting: Any = None) -> OwnCall:
        """Notes that something is scheduled, by an object that was made there. `waiting`: what waits on a real reactor."""
        due = 0.0 if waiting is not None else watcher.now() + float(delay.seconds)
        call = OwnCall(delay, due, waiting, len(watcher.parts))
        self.calls.append((call, made_at))
        self.note(watcher, call)
        return call

    def cancel(self, watcher: Observer, call: OwnCall) -> None:
        """Notes that this was cancelled. Its line has a place: it is logged only where the object isn't recorded as such."""
        call.scheduled = None
        self.note(watcher, Cancelled(call))
        call.cancelled_at = len(watcher.parts)
        watcher.parts.extend(("", "", ""))

    def run_call(self, watcher: Observer, call: OwnCall, run: Callable[[], object]) -> None:
        """Runs what was scheduled, whose line was the last. A line that its body runs has a place after that."""
        call.scheduled = None
        call.ran_at = len(watcher.parts) - self.words - 1
        watcher.has_noted(self)
        watcher.parts.append("")
        event = watcher.happening() if watcher.pace is not None else None
        if event is not None:
            event.inner, event.inner_of = call.notes, self
        try:
            self._within(call.notes, run)
        except BaseException as error:
            call.raises = watcher.raising(error)
            raise


def fails_inside(notes: Optional[Notes]) -> bool:
    """Whether what was noted last has failed, by which all of it did."""
    last = notes[-1][1] if notes else None
    return isinstance(last, Action) and last.raised is not None
