"""Records a run without the loops and Cooperators that no script says as such: as the delayed calls, Deferreds and Python they are made of.

On a real reactor, what a step of a task has done is an event then, before which time advances to it, as with input from a socket. So is what
the Cooperator has done by itself: it has added a pair to what a step gave, and fired the Deferreds of `whenDone`. A turn of a loop is a
delayed call that does nothing, and what the turn has done are events after that. So they don't lie in each other, however many there are.

On a Clock a tick is a delayed call, and a turn is one, which does all this. The lines of these loops, Cooperators and their tasks are left
out.
"""

from __future__ import annotations

import copy
from bisect import bisect_right
from fractions import Fraction
from itertools import accumulate
from typing import Any, Iterable, Iterator, List, NamedTuple, Optional, Sequence, Set, Tuple

from ..instruments.inner import Cancelled, Inner, Notes, OwnCall, Side, TickError, Turn, TurnSide, fails_inside
from ..instruments.pace import Pace
from ..instruments.tasks import Cooperators
from ..telling import Action, Advance, Begun, Ended, Failed, Part, Record, Thing, Time
from .alike import exact
from .bodies import SHALLOW, Body, Run
from .recorder import Recorder

#: the first words of lines whose second part is a loop, a task or a Cooperator
_OF_OBJECTS = frozenset({"loop ", "turn ", "later loop ", "stop "}) | frozenset(
    {"step ", "end ", "hold ", "pausetask ", "resumetask ", "whendone ", "stopcooperator "}
)
#: parts that are whole lines
_WHOLE = (Action, Begun, Ended, Failed)
#: by the words of actions, which of its parts is a Deferred that it makes, and that is made all the same
_MAKES = {"whenDone": 1, "loop": 2}

#: an action that is recorded, and before which part of lines it begins
Placed = Tuple[Action, int]


class _Words(Thing):
    """A part of a line: words around the name of a delayed call, which may be that of another one by the time that the line is said."""

    def __init__(self, before: str, named: Thing, after: str = "") -> None:
        super().__init__(before)
        self._named = named
        self._after = after

    @property
    def name(self) -> str:
        """The part."""
        return f"{self.own_name}{self._named.name}{self._after}"


class _NameOf(Thing):
    """A part of a line: the name of a Deferred."""

    def __init__(self, record: Record) -> None:
        super().__init__("")
        self._record = record

    @property
    def name(self) -> str:
        """The part."""
        record = self._record
        while record.alias is not None:
            record = record.alias
        return str(record.name)


class Hindsight:
    """A run, from which loops and Cooperators may be left out."""

    def __init__(self, recorder: Recorder, counts: Optional[Sequence[int]] = None) -> None:
        """`counts`: by how many events were recorded at first, how many these are now, if something was left out before."""
        #: the run as it is recorded now
        self.recorder = recorder
        self._original = recorder
        #: by how many events were recorded at first, how many of its events these are
        self.counts = counts
        #: what further Cooperators do by themselves
        self.further: Optional[Inner] = None if recorder.cooperator is None else recorder.cooperator.inner
        #: the runs whose actions are recorded elsewhere, those of the steps of Cooperators; and those of the ticks in which they are
        self._spliced: Set[Run] = set()
        self._ticks: List[Run] = []

    def leave(self, inners: Sequence[Inner]) -> None:
        """Leaves out what these objects are, of which everything that they did by themselves was noted."""
        recorder = self.recorder
        telling = _Telling(recorder, self._original, inners, self._spliced, self._ticks)
        ends = [*recorder.begins[1:], len(recorder.parts)]
        events = [telling.of_event(*event) for event in zip(recorder.events, recorder.begins, ends)]
        telling.fill_bodies()
        if recorder.pace is not None:
            _change_times(recorder.pace, inners, {id(placed[0][0]) for placed in events if len(placed) > 1})
        told = copy.copy(recorder)
        told.parts = telling.parts()
        told.events = [action for placed in events for action, _ in placed]
        told.begins = [begin for placed in events for _, begin in placed]
        told.quirks = _quirks_of(recorder, inners)
        told.problems = [problem for problem in recorder.problems if problem.inner not in inners]
        told.quirks_of = [(inner, entry) for inner, entry in recorder.quirks_of if inner not in inners]
        told.cooperator = _cooperators_without(recorder.cooperator, inners)
        sizes = [0, *accumulate(map(len, events))]
        self.counts = sizes if self.counts is None else [sizes[count] for count in self.counts]
        self.recorder = told


def _change_times(pace: Pace, inners: Sequence[Inner], with_events: Set[int]) -> None:
    """Has ticks on a real reactor come from elsewhere, and turns be delayed calls.

    `with_events`: the advances in which there are events, by their numbers of Python.
    """
    for error, _ in (error for inner in inners for error in inner.errors):
        pace.run_at_once(error.waiting, error.event, error.advance)
    pace.loosen(lambda owner: owner in inners)
    pace.leave_ticks(lambda owner: owner in inners, lambda advance: id(advance) in with_events)


def _cooperators_without(known: Optional[Cooperators], inners: Sequence[Inner]) -> Optional[Cooperators]:
    """The Cooperators that are recorded as such, without these."""
    if known is None:
        return None
    left = copy.copy(known)
    left.further = [one for one in known.further if one.inner not in inners]
    left.first = None if known.first is None or known.first.inner in inners else known.first
    return left


class _Call:
    """A tick on a Clock, or a turn, as a delayed call. On a real reactor it does nothing."""

    def __init__(self, own: OwnCall, thing: Thing, words: int, began: int) -> None:
        self.own = own
        self.thing = thing
        self._words = words
        self.body = Body("call", SHALLOW + 1)
        self.later = Action(["later", thing, own.delay, self.body])
        self.cancel = Action(["cancelCall", thing])
        if own.ran_at is not None:
            self.body.runs.append(Run("call", None, self.body.depth, began))

    def put_lines(self, parts: List[Any], preceding: int) -> None:
        """Puts its lines into their places, before which so many more parts of lines are."""
        own = self.own
        self._put(parts, preceding + own.scheduled_at, "later call ", " ")
        if own.ran_at is not None:
            begin = preceding + own.ran_at
            self._put(parts, begin, "call ")
            parts[begin + self._words + 1] = self.body
        if own.cancelled_at is not None:
            begin = preceding + own.cancelled_at
            parts[begin : begin + 3] = ["uncall ", self.thing, None]

    def _put(self, parts: List[Any], begin: int, words: str, after: str = "") -> None:
        parts[begin : begin + self._words] = [words, self.thing] if self._words > 1 else [_Words(words, self.thing, after)]


class _Advances:
    """The times to which a Clock is advanced, and where the lines of that are.

    Times of a Clock are floats, and those of a script aren't. So a call that is due right after an advance is due by that in a script.
    """

    def __init__(self, parts: Sequence[Any]) -> None:
        self._places = [place for place, part in enumerate(parts) if part == "advance " and isinstance(parts[place + 1], Time)]
        self._times = [exact(parts[place + 1].seconds) for place in self._places]

    def _last(self, place: int) -> int:
        """Which advance is the last before this part of lines, or -1."""
        return bisect_right(self._places, place) - 1

    def put_apart(self, own: OwnCall, parts: List[Any], preceding: int, words: int) -> None:
        """Has a call be due after the advances that haven't run it."""
        begin = preceding + own.scheduled_at
        line_time = next(place for place in range(begin + words, begin + words + 2) if isinstance(parts[place], Time))
        made = self._last(begin)
        over = own.ran_at if own.ran_at is not None else own.cancelled_at
        last = len(self._times) if over is None else self._last(preceding + over)
        if last <= made or not self._times:
            return
        now = self._times[made] if made >= 0 else Fraction(0)
        before = self._times[last - 1] if last > 0 else Fraction(0)
        after = self._times[last] if last < len(self._times) else before + 1
        if exact(parts[line_time].seconds) <= before < after:
            due = (before + after) / 2
            parts[line_time] = Time(due)
            own.delay.seconds = due - now


class _Told(NamedTuple):
    """What a run of a body did, and how it ended."""

    run: Run
    actions: List[Action]
    end: Any


class _Telling:
    """The actions that are recorded without some objects, and before which parts of lines they begin."""

    def __init__(
        self, recorder: Recorder, original: Recorder, inners: Sequence[Inner], spliced: Set[Run], ticks: List[Run]
    ) -> None:
        self._recorder = recorder
        self._original = original
        self._inners = inners
        self._spliced = spliced
        self._ticks = ticks
        self._preceding = recorder.preceding_parts
        #: on a Clock, all that a turn or a tick does is in the body of a delayed call, where no action needs a place
        self._is_real = recorder.pace is not None
        self._places = {id(part): place for place, part in enumerate(recorder.parts) if type(part) is Action} if self._is_real else {}
        self._errors = {id(error.event): error for inner in inners for error, _ in inner.errors}
        #: what was scheduled, and these by their numbers of Python
        self._calls = [self._call(inner, own, made_at) for inner in inners for own, made_at in inner.calls]
        self._of_own = {id(call.own): call for call in self._calls}
        #: actions whose failures are caught in the new recording and weren't before, or the other way round, each with whether they are
        self._caught: List[Tuple[Action, bool]] = []
        #: the bodies of turns and of the sides of their pairs, and between which parts stand lines of failures that aren't logged any more
        self._bodies: List[Tuple[int, Body]] = []
        self._sides: List[Tuple[TurnSide, Run]] = []
        self._dropped: List[Tuple[int, int]] = []

    def _call(self, inner: Inner, own: OwnCall, made_at: Any) -> _Call:
        return _Call(own, self._recorder.thing("call", made_at), inner.words, self._began(own.ran_at or 0))

    def _began(self, at: int) -> int:
        """How many events had begun before this part of lines."""
        original = self._original
        return bisect_right(original.begins, original.preceding_parts + at) - original.preceding

    # the events, and the bodies

    def of_event(self, action: Action, begin: int, end: int) -> List[Placed]:
        """What is recorded in place of an event that has these parts of lines."""
        if self._is_left(action) and action.raised is not None and not isinstance(action, Advance) and not fails_inside(action.inner):
            self._drop_last_line(begin, end)
        events = list(self._told(action, begin, False))
        error = self._errors.get(id(action))
        return events if error is None else events + [(event, self._preceding + at) for event, at in error.events()]

    def fill_bodies(self) -> None:
        """Has bodies do what is recorded in place of what they did."""
        told = [*map(self._of_call, self._calls), *(self._of_side(side) for inner in self._inners for side in inner.sides)]
        used = {run for inner in self._inners for run in inner.used_in}
        told += [self._of_body(run) for run in used.union(self._ticks) - self._spliced - {self._recorder.top} if run.noted]
        told += self._of_turns()
        self._ticks += [run for call in self._calls for run in call.body.runs]
        for run, actions, end in told:
            run.noted, run.end = actions, end
        for action, is_caught in self._caught:
            action.caught = is_caught

    def _of_turns(self) -> Iterator[_Told]:
        """What the sides of the pairs of turns do."""
        for side, run in self._sides:
            yield _Told(run, self._actions(side.notes), ["return", None] if side.raises is None or fails_inside(side.notes) else side.raises)

    def _of_body(self, run: Run) -> _Told:
        """What is recorded in place of the actions of a body."""
        assert run.noted is not None
        last = run.noted[-1]
        actions = [one for action in run.noted for one, _ in self._told(action, 0, action.caught)]
        ends_by_last = self._is_left(last) and last.raised is not None and not last.caught
        return _Told(run, actions, last.raises if ends_by_last and not fails_inside(last.inner) else run.end)

    def _of_call(self, call: _Call) -> _Told:
        """What is recorded in place of a tick on a Clock, or of a turn. One that hasn't run does nothing."""
        own = call.own
        run = call.body.runs[0] if call.body.runs else Run("call")
        if own.waiting is not None:
            return _Told(run, [], None)
        return _Told(run, self._actions(own.notes), None if fails_inside(own.notes) else own.raises)

    def _of_side(self, side: Side) -> _Told:
        """What a side of a pair does by which a Deferred holds a task."""
        return _Told(side.run, self._actions(side.notes), None if fails_inside(side.notes) else side.run.end)

    def _actions(self, notes: Notes) -> List[Action]:
        return [action for action, _ in self._noted(notes, False)]

    # the lines

    def parts(self) -> List[Optional[Part]]:
        """The parts of lines, without those of the objects, and with those of what these are recorded as."""
        parts: List[Any] = list(self._recorder.parts)
        for begin, end in self._dropped:
            parts[begin:end] = [""] * (end - begin)
        for call in self._calls:
            call.put_lines(parts, self._preceding)
        if not self._is_real:
            self._put_apart(parts)
        for turn in (turn for inner in self._inners for turn in inner.turns):
            self._put_lines_of_turn(parts, turn)
        for at, body in self._bodies:
            parts[self._preceding + at] = body
        for error, made_at in (error for inner in self._inners for error in inner.errors):
            error.thing.own_name = self._recorder.thing("call", made_at).name
            error.put_lines(parts, self._preceding)
        return _without_lines(parts, self._inners)

    def _put_apart(self, parts: List[Any]) -> None:
        advances = _Advances(parts)
        for inner in self._inners:
            for own, _ in inner.calls:
                advances.put_apart(own, parts, self._preceding, inner.words)

    def _put_lines_of_turn(self, parts: List[Any], turn: Turn) -> None:
        """Puts the lines of a turn that is recorded as `maybeDeferred` and two pairs into their places."""
        record = turn.record
        if record is None:
            return
        if turn.named_at is not None:
            begin = self._preceding + turn.named_at
            parts[begin : begin + 5] = ["name ", record, " ", _NameOf(record), None]
        for added_at in turn.added_at[1:]:
            begin = self._preceding + added_at
            parts[begin : begin + 3] = ["add ", record, None]

    def _drop_last_line(self, begin: int, end: int) -> None:
        """Has the failure not be logged by which an event has ended that isn't recorded any more."""
        parts = self._recorder.parts
        last = next((place for place in range(end - 2, begin - 1, -1) if place == begin or parts[place - 1] is None), end)
        if last < end and parts[last] == "unhandled ":
            self._dropped.append((last, end))

    # the actions

    def _is_left(self, action: Action) -> bool:
        """Whether it is an action on one of the objects."""
        return action.inner is not None and action.inner_of in self._inners

    def _told(self, action: Action, begin: int, is_caught: bool) -> Iterator[Placed]:
        """What is recorded in place of an action that begins there, whose failure, if it failed, is caught or isn't."""
        if not self._is_left(action):
            yield action, begin
            return
        assert action.inner is not None
        if isinstance(action, Advance):
            yield action, begin
        else:
            self._caught.append((action, False))
        if action[0] in _MAKES:
            yield Action(["deferred", action[_MAKES[action[0]]]]), begin
        yield from self._noted(action.inner, is_caught)

    def _noted(self, notes: Notes, is_caught: bool) -> Iterator[Placed]:
        """What an object has done by itself: the steps of its tasks, its turns, and the rest."""
        for place, what in notes:
            if isinstance(what, Body):
                yield from self._told_of_step(what)
                continue
            if isinstance(what, Turn):
                yield from self._told_of_turn(what)
                continue
            if isinstance(what, OwnCall):
                what = self._of_own[id(what)].later
            elif isinstance(what, Cancelled):
                what = self._of_own[id(what.call)].cancel
            elif what.raised is not None:
                self._caught.append((what, is_caught))
            yield what, self._preceding + place

    def _told_of_step(self, step: Body) -> Iterator[Placed]:
        self._spliced.update(step.runs)
        for action in (action for run in step.runs for action in run.actions):
            if action.raised is not None:
                self._caught.append((action, True))  # by the step, or by the Cooperator
            place = self._preceding + action.at if action.at is not None else self._places[id(action)] if self._is_real else 0
            yield from self._told(action, place, True)

    def _told_of_turn(self, turn: Turn) -> Iterator[Placed]:
        """A turn as `maybeDeferred` and two pairs. One in which the run has ended has no Deferred yet."""
        record, loop_body = turn.record, turn.body
        if record is None:
            return
        if record.name == "-":
            record.name = None
        body = Body("maybe", loop_body.depth)
        body.runs = loop_body.runs[turn.number : turn.number + 1]
        self._bodies.append((turn.began_at, body))
        yield Action(["maybe", record, body]), self._preceding + turn.began_at
        for pair, (word, added_at) in enumerate(zip(("addCallback", "addErrback"), turn.added_at)):
            yield Action([word, record, self._body_of_side(turn.side(pair))]), self._preceding + added_at

    def _body_of_side(self, side: Optional[TurnSide]) -> Body:
        body = Body("callback", SHALLOW + 1)
        if side is not None:
            run = Run("callback", side.given, body.depth, self._began(side.ran_at))
            body.runs.append(run)
            self._sides.append((side, run))
            self._bodies.append((side.ran_at, body))
        return body


def _quirks_of(recorder: Recorder, inners: Iterable[Inner]) -> List[Tuple[int, Any]]:
    """Where Twisted does what entries of the profile name, if these objects aren't recorded as such."""
    preceding = recorder.preceding_parts
    left = {(place + preceding, entry) for inner in inners for place, entry in inner.quirks_as_such}
    fresh = [(place + preceding, entry) for inner in inners for place, entry in inner.quirks]
    return sorted([quirk for quirk in recorder.quirks if quirk not in left] + fresh, key=lambda quirk: quirk[0])


def _without_lines(parts: Sequence[Optional[Part]], inners: Sequence[Inner]) -> List[Optional[Part]]:
    """The parts of lines, with empty texts in the place of the lines of these objects."""
    kept = list(parts)
    begin = 0
    for place, part in enumerate(parts):
        if begin == place and (isinstance(part, _WHOLE) or part == ""):
            begin += 1
        elif part is None:
            named = parts[begin]
            if type(named) is str and named in _OF_OBJECTS:
                named = parts[begin + 1]
            if isinstance(named, Thing) and named.inner in inners:
                kept[begin : place + 1] = [""] * (place + 1 - begin)
            begin = place + 1
    return kept
