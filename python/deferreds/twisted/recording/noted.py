"""Reads the notes of a run: what a recorder would have in memory. Nothing in a file of notes is run, and each item is checked."""

from __future__ import annotations

import weakref
from fractions import Fraction
from typing import Any, Callable, Dict, Iterable, Iterator, List, NamedTuple, Optional, Sequence, Set, Tuple, Type

from ..instruments.inner import Cancelled, Inner, OwnCall, Side, TickError, Turn, TurnSide
from ..instruments.pace import Moved, Pace, Waiting
from ..instruments.settling import Entry, Loop, Step
from ..instruments.settling import Tick as TickAsked
from ..instruments.tasks import Cooperating, Cooperators, Tick
from ..instruments.tasks import Word as CooperatorWord
from ..profile import Entry as ProfileEntry
from ..telling import Action, Advance, Begun, Ended, Failed, Pool, Record, Thing, Time
from ..texts import NULL, Outcome, Text, Value
from .arguments import Call
from .bodies import Body, Run, Steps, Unsayable
from .hiding import CHOICES
from .notation import BITS, KINDS, MAGIC, MASK, NONE, VERSION, Has, Kind, Tag, Word
from .notes import BadNotes
from .places import Spot, Spots, know_lines, line_of
from .recorder import Problem, Recorder

#: how deep lists may lie in each other in a part
_DEEPEST = 64
_MISSING = object()


class Code:
    """The code of a function: its file, whether that is the program's own, or one of a loop that runs what is due, and its name."""

    def __init__(self, file: str, path: str, is_own: bool, is_running: bool, name: str) -> None:
        self.co_filename = file
        self.co_name = name
        self.path = path
        self.is_own = is_own
        self.is_running = is_running


class ReadSpots(Spots):
    """Where actions ran and Deferreds were made, as the notes say it."""

    @staticmethod
    def _is_running(code: Any) -> bool:
        return bool(code.is_running)

    @staticmethod
    def _is_own(code: Any) -> bool:
        return bool(code.is_own)

    @staticmethod
    def _path(code: Any) -> str:
        return str(code.path)


class Noted(NamedTuple):
    """What notes say: what was recorded, how many events had ended, how the run did, and with which Twisted and Python."""

    recorder: Recorder
    ended: Optional[int]
    #: nothing, if the notes end before the run does
    how: str
    twisted: str
    python: str


def header(redact: str, twisted: str, python: str, began: float) -> List[Any]:
    """The first segment."""
    return [MAGIC, VERSION, redact, twisted, python, began]


def noted(segments: Iterable[List[Any]]) -> Noted:
    """What these segments say. Raises BadNotes if they aren't those of a run."""
    each = iter(segments)
    first: List[Any] = next(each, [])
    if first[:1] != [MAGIC]:
        raise BadNotes("it isn't a file of notes")
    if first[1:2] != [VERSION]:
        raise BadNotes("another version of this command has written it")
    kinds = [type(item) for item in header("", "", "", 0.0)[2:]]
    if [type(item) for item in first[2:]] != kinds or first[2] not in CHOICES:
        raise BadNotes("its first segment is damaged")
    reader = _Reader(first[2], first[5])
    try:
        for segment in each:
            reader.read(segment)
        reader.finish()
    except (IndexError, ValueError, KeyError, TypeError, AttributeError, OverflowError, RecursionError) as why:
        raise BadNotes(f"a note is damaged ({type(why).__name__})") from None
    return Noted(reader.recorder, reader.ended, reader.how, first[3], first[4])


class _Reader:
    """Reads segments, and has what they say be in a recorder."""

    def __init__(self, redact: str, began: float) -> None:
        self.recorder = Recorder(redact=redact)
        spots = self.recorder.spots = ReadSpots(began)
        self.ended: Optional[int] = None
        self.how = ""
        self._items: List[Any] = []
        self._at = 0
        self._tables: List[List[Any]] = [[] for _ in KINDS]
        self._tables[Kind.RUN].append(self.recorder.top)
        self._actions: List[Action] = []
        self._codes: List[Code] = []
        self._all_callers: List[Tuple[Any, ...]] = []
        self._names = spots.free_names()
        self._times: List[Time] = []
        #: what waits, by the numbers of Python for its entries; the bodies that an action has; the step that may go on
        self._waiting: Dict[int, Waiting] = {}
        self._handed: Set[int] = set()
        self._noted_bodies: Set[int] = set()
        self._unnamed: Dict[int, List[Action]] = {}
        #: of how many objects of each kind more is known than their numbers
        self._defined = [0] * len(KINDS)
        self._defined[Kind.RUN] = 1
        self._depth = 0
        self._words: Dict[int, Callable[[], None]] = {
            Word.BODIES: self._bodies,
            Word.STEPS: self._steps,
            Word.THINGS: self._things,
            Word.OTHER_THING: self._other_thing,
            Word.RECORDS: self._records,
            Word.EVENT: self._event,
            Word.RUN: self._run,
            Word.RUN_GOES_ON: self._run_goes_on,
            Word.STEPS_GO_ON: self._steps_go_on,
            Word.RESULT: self._result,
            Word.PACE: self._pace,
            Word.WAITING: self._waits,
            Word.LOOP: self._loop,
            Word.STEP: self._step,
            Word.STEP_GOES_ON: self._step_goes_on,
            Word.MOVED: self._moved,
            Word.COOPERATORS: self._cooperators,
            Word.COOPERATING: self._cooperating,
            Word.UNNAMED: self._are_unnamed,
            Word.PROBLEM: self._problem,
            Word.QUIRK: lambda: self.recorder.quirks.append((self._integer(), ProfileEntry(self._text()))),
            Word.QUIRK_OF: lambda: self.recorder.quirks_of.append((self._get(Kind.INNER), ProfileEntry(self._text()))),
            Word.INNER: self._inner,
            Word.USED_IN: self._used_in,
            Word.QUIRK_AS_SUCH: lambda: self._of_inner().quirks_as_such.append((self._integer(), ProfileEntry(self._text()))),
            Word.QUIRK_OTHERWISE: lambda: self._of_inner().quirks.append((self._integer(), ProfileEntry(self._text()))),
            Word.CALL: self._call,
            Word.CALL_IS_OVER: self._call_is_over,
            Word.SIDE: self._side,
            Word.TURN: self._turn,
            Word.TURN_GOES_ON: self._turn_goes_on,
            Word.ERROR: self._error,
            Word.PARTS: self._lines,
            Word.FAILED: self._failed,
            Word.SPOT: self._spot_of,
            Word.CALLERS: self._callers_of_spot,
            Word.MADE_BY: self._made_by,
            Word.CODE: self._new_code,
            Word.CALLED: self._called,
            Word.THING_MADE: self._thing_made,
            Word.FURTHER_CLOCK: lambda: self.recorder.further_clocks.append(self._text()),
            Word.CLASS: lambda: self.recorder.classes.declared.append((self._text(), self._text())),
            Word.POOL: self._pool,
            Word.SECRET: self._secret,
            Word.FACTS: self._facts,
            Word.END: self._end,
        }
        self._parts: Dict[int, Callable[[int], Any]] = {
            Tag.INTEGER: lambda number: number,
            Tag.RECORD: self._tables[Kind.RECORD].__getitem__,
            Tag.THING: self._tables[Kind.THING].__getitem__,
            Tag.ACTION: self._actions.__getitem__,
            Tag.BODY: self._tables[Kind.BODY].__getitem__,
            Tag.STEPS: self._tables[Kind.STEPS].__getitem__,
            Tag.TURN: self._tables[Kind.TURN].__getitem__,
            Tag.CALL: self._tables[Kind.CALL].__getitem__,
            Tag.FAILED: lambda number: Failed(self._actions[number]),
            Tag.ENDED: lambda number: Ended(self._actions[number]),
            Tag.CANCELLED: lambda number: Cancelled(self._tables[Kind.CALL][number]),
            Tag.NEW_TIME: self._new_time,
            Tag.TIME: lambda number: self._times[number],
            Tag.LIST: self._list,
            Tag.DICT: self._dict,
            Tag.TEXT: lambda weight: Text(self._text(), weight),
            Tag.OUTCOME: lambda _: Outcome(self._value()),
            Tag.VALUE: lambda _: Value(self._value()),
            Tag.UNSAYABLE: lambda _: Unsayable(self._text(), self._text(), self._text()),
            Tag.WORD: self._word,
            Tag.FRACTION: lambda _: Fraction(self._any_integer(), self._integer()),
            Tag.NEW_ACTION: lambda _: self._new_action(),
        }

    def read(self, items: List[Any]) -> None:
        """Reads a segment."""
        self._items, self._at = items, 0
        self._times.clear()
        for kind in KINDS:
            count = self._integer()
            if count > len(items):
                raise BadNotes("a segment has more objects than items")
            self._tables[kind] += [_EMPTY[kind]() for _ in range(count)]
        end = len(items)
        while self._at < end:
            self._words[self._integer()]()

    def finish(self) -> None:
        """Works out what is known of Deferreds by their lines."""
        _follow(self.recorder.parts)

    # items

    def _next(self) -> Any:
        at = self._at
        self._at = at + 1
        return self._items[at]

    def _any_integer(self) -> int:
        item = self._next()
        if type(item) is not int:
            raise ValueError
        return item

    def _integer(self) -> int:
        """A number from 0 on."""
        item = self._next()
        if type(item) is not int or item < 0:
            raise ValueError
        return item

    def _text(self) -> str:
        item = self._next()
        if type(item) is not str:
            raise ValueError
        return item

    def _flag(self) -> bool:
        item = self._next()
        if type(item) is not bool:
            raise ValueError
        return item

    def _integer_or_none(self) -> Optional[int]:
        return None if self._is_none() else self._integer()

    def _flag_or_none(self) -> Optional[bool]:
        return None if self._is_none() else self._flag()

    def _text_or_none(self) -> Optional[str]:
        return None if self._is_none() else self._text()

    def _is_none(self) -> bool:
        """Whether the next item is None, which is taken then."""
        if self._items[self._at] is not None:
            return False
        self._at += 1
        return True

    def _count(self) -> int:
        """How many of something follow: at least an item each."""
        count = self._integer()
        if count > len(self._items) - self._at:
            raise ValueError
        return count

    def _get(self, kind: Kind) -> Any:
        """An object by its number."""
        return self._tables[kind][self._integer()]

    def _get_or_none(self, kind: Kind) -> Any:
        number = self._any_integer()
        if number == NONE:
            return None
        if number < 0:
            raise ValueError
        return self._tables[kind][number]

    def _action_or_none(self) -> Optional[Action]:
        number = self._any_integer()
        if number == NONE:
            return None
        if number < 0:
            raise ValueError
        return self._actions[number]

    def _action(self) -> Action:
        return self._actions[self._integer()]

    # parts

    def _part(self) -> Any:
        """A part of a line or of an action."""
        item = self._next()
        if type(item) is not int:
            return item
        number = item >> BITS
        if number < 0 and item & MASK:
            raise ValueError
        return self._parts[item & MASK](number)

    def _typed(self, *kinds: Type[Any]) -> Any:
        """A part that is of one of these classes, or None."""
        part = self._part()
        if part is not None and not isinstance(part, kinds):
            raise ValueError
        return part

    def _value(self) -> Any:
        """What an outcome shows."""
        value = self._part()
        if not _is_shown(value):
            raise ValueError
        return value

    def _new_time(self, _: int) -> Time:
        seconds = self._part()
        if type(seconds) not in (int, float, Fraction):
            raise ValueError
        self._times.append(Time(seconds))
        return self._times[-1]

    def _time(self) -> Time:
        time = self._part()
        if type(time) is not Time:
            raise ValueError
        return time

    def _list(self, count: int) -> List[Any]:
        if count > len(self._items) - self._at:
            raise ValueError
        self._go_deeper()
        found = [self._part() for _ in range(count)]
        self._depth -= 1
        return found

    def _dict(self, count: int) -> Dict[str, Any]:
        if count > len(self._items) - self._at:
            raise ValueError
        self._go_deeper()
        found = {self._text(): self._part() for _ in range(count)}
        self._depth -= 1
        return found

    def _go_deeper(self) -> None:
        self._depth += 1
        if self._depth > _DEEPEST:
            raise BadNotes("lists lie in each other too deep")

    def _word(self, number: int) -> CooperatorWord:
        return CooperatorWord(self._tables[Kind.COOPERATING][number], self._text(), self._text())

    def _new_action(self) -> Action:
        """An action that comes first here."""
        has = Has(self._integer())
        action: Action = Advance() if has & Has.ADVANCE else Action()
        self._actions.append(action)
        items = [self._part() for _ in range(self._count())]
        if not items or type(items[0]) is not str:
            raise ValueError
        for item in items:
            if isinstance(item, (Body, Steps)):
                self._hand(item)
        if isinstance(action, Advance):
            if len(items) != 2 or type(items[1]) is not Time:
                raise ValueError
            action.by = items[1]
        action[:] = items
        self._attributes(action, has)
        return action

    def _hand(self, body: object) -> None:
        """An action or a task has this body, or these bodies. No other may have them."""
        if id(body) in self._handed:
            raise ValueError
        self._handed.add(id(body))

    def _attributes(self, action: Action, has: Has) -> None:
        if has & Has.RAISED:
            action.raised = self._text()
        if has & Has.CAUGHT:
            action.caught = True
        if has & Has.AT:
            action.at = self._integer()
        if has & Has.CAME:
            action.came = self._integer()
        if has & Has.RAISES:
            action.raises = self._part()
        if has & Has.INNER:
            action.inner_of = self._get(Kind.INNER)
            action.inner = self._notes()

    def _notes(self) -> List[Tuple[int, Any]]:
        """What an object has done by itself."""
        notes: List[Tuple[int, Any]] = []
        self._go_deeper()
        for _ in range(self._count()):
            place, what = self._integer(), self._part()
            if not isinstance(what, (Action, Body, Turn, OwnCall, Cancelled)):
                raise ValueError
            if isinstance(what, Body):
                self._note_body(what)
            notes.append((place, what))
        self._depth -= 1
        return notes

    def _note_body(self, body: Body) -> None:
        """The body of a step is among what was done, once."""
        if id(body) in self._noted_bodies:
            raise ValueError
        self._noted_bodies.add(id(body))

    # what was made

    def _undefined(self, kind: Kind, count: int) -> List[Any]:
        """The next objects of a kind of which nothing is known but their numbers, so many."""
        table, first = self._tables[kind], self._defined[kind]
        if first + count > len(table):
            raise ValueError
        self._defined[kind] = first + count
        return table[first : first + count]

    def _bodies(self) -> None:
        for body in self._undefined(Kind.BODY, self._count()):
            body.kind, body.depth = self._text(), self._integer()

    def _steps(self) -> None:
        for steps in self._undefined(Kind.STEPS, self._count()):
            steps.depth = self._integer()

    def _things(self) -> None:
        """The things that the program has made, in order, by which they get their names."""
        count, first = self._count(), self._integer()
        for number in range(first, first + count):
            thing = self._tables[Kind.THING][number]
            thing.own_name = self._names.give(self._text())
            thing.inner = self._get_or_none(Kind.INNER)

    def _other_thing(self) -> None:
        thing = self._get(Kind.THING)
        thing.own_name, thing.inner = self._text(), self._get_or_none(Kind.INNER)

    def _records(self) -> None:
        for _ in range(self._count()):
            record = self._get(Kind.RECORD)
            if self._flag():
                record.number = len(self.recorder.records)
                self.recorder.records.append(record)
            record.name, record.made_in = self._text_or_none(), self._get_or_none(Kind.RUN)
            record.hidden_of, record.made_at = self._get_or_none(Kind.RECORD), self._spot()

    def _spot(self) -> Optional[Spot]:
        """Where something was made."""
        name = self._text_or_none()
        return None if name is None else (name, self._code(), self._integer())

    def _code(self) -> Optional[Code]:
        number = self._any_integer()
        if number == NONE:
            return None
        if number != len(self._codes):
            if number < 0:
                raise ValueError
            return self._codes[number]
        code = Code(self._text(), self._text(), self._flag(), self._flag(), self._text())
        count = self._count()
        starts, lines = ([self._any_integer() for _ in range(count)] for _ in range(2))
        if not starts:
            raise ValueError
        know_lines(code, starts, lines)
        self._codes.append(code)
        return code

    # what happened

    def _event(self) -> None:
        self.recorder.begins.append(self._integer())
        self.recorder.events.append(self._new_action())

    def _run(self) -> None:
        run = self._undefined(Kind.RUN, 1)[0]
        if self._get(Kind.RUN) is not run:
            raise ValueError
        self._get(Kind.BODY).runs.append(run)
        run.kind, run.depth, run.began, run.given = self._text(), self._any_integer(), self._integer(), self._typed(Outcome)
        self._rest_of_run(run)

    def _run_goes_on(self) -> None:
        run = self._get(Kind.RUN)
        if self._flag():
            last = run.noted[-1]
            last.raised, last.caught, last.came = self._text_or_none(), self._flag(), self._integer_or_none()
        self._rest_of_run(run)

    def _rest_of_run(self, run: Run) -> None:
        run.end = self._typed(list, Unsayable)
        actions = [self._new_action() for _ in range(self._count())]
        if actions:
            run.noted = [*run.actions, *actions]

    def _steps_go_on(self) -> None:
        steps = self._get(Kind.STEPS)
        for _ in range(self._count()):
            body = self._get(Kind.BODY)
            self._hand(body)
            steps.bodies.append(body)

    def _result(self) -> None:
        action, work = self._action(), self._part()
        if type(work) is not list or type(action[-1]) is not list:
            raise ValueError
        action[-1] = work

    # times

    def _pace(self) -> None:
        pace = self.recorder.pace = Pace.__new__(Pace)
        pace.steps, pace.advances, pace.waiting, pace.moved = [], {}, [], []

    def _waits(self) -> None:
        entry = self._undefined(Kind.ENTRY, 1)[0]
        entry.order, entry.delay, entry.loop = self._integer(), self._integer_or_none(), self._get_or_none(Kind.LOOP)
        entry.turn, entry.moved = self._integer(), self._integer()
        entry.before, entry.inside = self._get_or_none(Kind.ENTRY), self._flag()
        is_loose = self._flag()
        if entry.loop is not None:
            entry.loop.is_loose = is_loose
        if self._flag():
            entry.tick = TickAsked(self._integer(), self._flag(), self._get_or_none(Kind.INNER))
        waiting = Waiting(entry, self._time(), self._time())
        self._waiting[id(entry)] = waiting
        self.recorder.pace.waiting.append(waiting)

    def _loop(self) -> None:
        loop = self._get(Kind.LOOP)
        loop.interval, loop.at, loop.place, loop.owner = self._integer(), self._any_integer(), self._text(), self._get_or_none(Kind.INNER)
        if loop.interval < 1:
            raise ValueError

    def _step(self) -> None:
        pace: Pace = self.recorder.pace
        step = Step(self._get_or_none(Kind.ENTRY), self._integer())
        advance = self._action_or_none()
        if advance is not None:
            if not isinstance(advance, Advance):
                raise ValueError
            pace.advances[step] = advance
        elif pace.steps:
            raise ValueError
        pace.steps.append(step)

    def _step_goes_on(self) -> None:
        step: Step = self.recorder.pace.steps[-1]
        step.closed = self._flag()
        made, ended, starts = self._count(), self._count(), self._count()
        step.made += [self._get(Kind.ENTRY) for _ in range(made)]
        step.ended += [(self._get(Kind.ENTRY), self._flag()) for _ in range(ended)]
        step.starts.clear()
        for _ in range(starts):
            loop = self._get(Kind.LOOP)
            loop.at = loop.start = self._any_integer()
            step.starts.append(loop)

    def _moved(self) -> None:
        action, before, fresh = self._action(), self._get(Kind.ENTRY), self._get(Kind.ENTRY)
        self.recorder.pace.moved.append(Moved(action, before, self._waiting[id(fresh)]))

    # Cooperators

    def _cooperators(self) -> None:
        known = self.recorder.cooperator = Cooperators()
        known.inner = self._get(Kind.INNER)

    def _are_unnamed(self) -> None:
        cooperating = self._get(Kind.COOPERATING)
        self._unnamed.setdefault(id(cooperating), []).extend(self._action() for _ in range(self._count()))

    def _cooperating(self) -> None:
        known = self.recorder.cooperator
        if known is None:
            raise ValueError
        cooperating: Cooperating = self._get(Kind.COOPERATING)
        is_first = self._flag()
        if cooperating not in known.all():
            if is_first:
                known.first = cooperating
            else:
                known.further.append(cooperating)
        cooperating.is_further, thing, cooperating.inner = self._flag(), self._get_or_none(Kind.THING), self._get_or_none(Kind.INNER)
        if thing is not None and cooperating.thing is None:
            cooperating.unnamed = self._unnamed.pop(id(cooperating), [])
            cooperating.name_it(thing)
        cooperating.delays += [self._time() for _ in range(self._count())]
        for _ in range(self._count()):
            cooperating.ticks.append(Tick(self._integer(), self._flag(), self._action_or_none(), self._flag_or_none()))

    # what objects do by themselves

    def _of_inner(self) -> Inner:
        inner: Inner = self._get(Kind.INNER)
        return inner

    def _inner(self) -> None:
        inner = self._of_inner()
        inner.kind, inner.unclear, inner.made_at = self._text(), self._text(), self._spot()
        if inner.kind not in ("loop", "cooperator"):
            raise ValueError

    def _used_in(self) -> None:
        self._of_inner().used_in.update([run for run in (self._get_or_none(Kind.RUN) for _ in range(self._count())) if run is not None])

    def _call(self) -> None:
        inner, call = self._of_inner(), self._get(Kind.CALL)
        call.due, call.scheduled_at = self._number(), self._integer()
        entry = self._get_or_none(Kind.ENTRY)
        call.waiting = None if entry is None else self._waiting[id(entry)]
        call.delay = self._time()
        inner.calls.append((call, self._spot()))

    def _number(self) -> float:
        item = self._next()
        if type(item) not in (int, float):
            raise ValueError
        return float(item)

    def _call_is_over(self) -> None:
        call = self._get(Kind.CALL)
        call.ran_at, call.cancelled_at, call.raises = self._integer_or_none(), self._integer_or_none(), self._typed(list, Unsayable)
        call.notes = self._notes()

    def _side(self) -> None:
        self._of_inner().sides.append(Side(self._get(Kind.RUN), self._notes()))

    def _turn(self) -> None:
        inner, turn = self._of_inner(), self._get(Kind.TURN)
        turn.body, turn.number, turn.began_at = self._get(Kind.BODY), self._integer(), self._integer()
        inner.turns.append(turn)

    def _turn_goes_on(self) -> None:
        turn = self._get(Kind.TURN)
        turn.record, turn.named_at = self._get_or_none(Kind.RECORD), self._integer_or_none()
        turn.added_at = tuple(self._integer() for _ in range(self._count()))
        turn.sides = tuple(self._turn_side() for _ in range(self._count()))

    def _turn_side(self) -> Tuple[int, TurnSide]:
        pair, at = self._integer(), self._integer()
        given = self._part()
        if not isinstance(given, Outcome):
            raise ValueError
        side = TurnSide(at, given)
        side.raises, side.notes = self._typed(list, Unsayable), self._notes()
        return pair, side

    def _error(self) -> None:
        inner, error = self._of_inner(), TickError.__new__(TickError)
        error.event, error.thing = self._action(), self._get(Kind.THING)
        error.waiting = self._waiting[id(self._get(Kind.ENTRY))]
        error.at = self._integer()
        made_at = self._spot()
        error.action, advance = self._new_action(), self._new_action()
        if not isinstance(advance, Advance):
            raise ValueError
        error.advance = advance
        inner.errors.append((error, made_at))

    # the lines, and facts

    def _lines(self) -> None:
        parts = self.recorder.parts
        for _ in range(self._count()):
            part = self._part()
            if part is not None and type(part) not in _OF_LINES and not isinstance(part, (Begun, Thing)):
                raise ValueError
            parts.append(part)

    def _failed(self) -> None:
        self.recorder.failed.extend(self._action() for _ in range(self._count()))

    def _spot_of(self) -> None:
        is_record, number = self._flag(), self._any_integer()
        what: object = _MISSING
        if number >= 0:
            what = self._tables[Kind.RECORD][number] if is_record else self._actions[number]
        code = self._code()
        if code is None:
            raise ValueError
        self.recorder.spots.noted += (what, code, self._integer(), None)

    def _thing_made(self) -> None:
        thing, made_at = self._get(Kind.THING), self._spot()
        if made_at is None or made_at[1] is None:
            raise ValueError
        self.recorder.spots.places_of_things.append((thing, made_at))

    def _called(self) -> None:
        action, function = self._action(), self._text()
        self.recorder.spots.calls.append(Call(action, function, [(self._text(), self._value()) for _ in range(self._count())]))

    def _new_code(self) -> None:
        self._code()

    def _callers_of_spot(self) -> None:
        self.recorder.spots.noted[-1] = self._callers()

    def _made_by(self) -> None:
        record = self._get(Kind.RECORD)
        record.made_at = (*record.made_at[:3], self._callers())

    def _callers(self) -> Tuple[Any, ...]:
        """Callers by their number, or those that come first."""
        number = self._integer()
        if number != len(self._all_callers):
            return self._all_callers[number]
        callers: List[Any] = []
        for _ in range(self._count() // 2):
            callers += (self._codes[self._integer()], self._integer())
        self._all_callers.append(tuple(callers))
        return self._all_callers[-1]

    def _problem(self) -> None:
        reason, place, kind = self._text(), self._text(), self._text_or_none()
        self.recorder.problems.append(Problem(reason, place, kind, self._integer_or_none(), self._get_or_none(Kind.INNER)))

    def _pool(self) -> None:
        pool = Pool(_GONE, self._get(Kind.THING), self._integer())
        self.recorder.pools = (*self.recorder.pools, pool)

    def _secret(self) -> None:
        hiding = self.recorder.texts.hiding
        text, name = self._text(), self._text()
        hiding.secrets.setdefault(text, name)
        if self._flag():
            hiding.firm[text] = name

    def _facts(self) -> None:
        recorder = self.recorder
        recorder.elsewhere, recorder.ended = self._integer(), self._integer()
        if self._flag():
            recorder.use_clock(_CLOCK)

    def _end(self) -> None:
        self.ended, self.how = self._integer_or_none(), self._text()


class _Clock:
    """In the place of the clock of the run."""


_CLOCK = _Clock()
_GONE = weakref.ref(_Clock())

#: parts that are whole lines, and all parts of lines but these and things
_WHOLE = (Action, Begun, Ended, Failed)
_OF_LINES = frozenset({str, int, Record, Time, Text, Outcome, Value, Action, Advance, Failed, Ended})


def _is_shown(value: Any) -> bool:
    """Whether this is a value as a recording shows it. (What lies in it lies no deeper than a reader has gone.)"""
    if type(value) is list:
        return all(map(_is_shown, value))
    if type(value) is dict:
        return _is_failure(value)
    return value is None or type(value) in (str, int, bool) or isinstance(value, Thing)


def _is_failure(value: Dict[str, Any]) -> bool:
    if type(value.get("fail")) is not str or type(value.get("message")) is not str:
        return False
    return "sub" not in value or (type(value["sub"]) is dict and "index" in value and _is_failure(value["sub"]))


#: an object of each kind that has only its number
_EMPTY: Dict[Kind, Callable[[], Any]] = {
    Kind.BODY: lambda: Body("callback"),
    Kind.STEPS: Steps,
    Kind.RUN: lambda: Run("callback"),
    Kind.RECORD: Record,
    Kind.THING: lambda: Thing(""),
    Kind.ENTRY: lambda: Entry(0),
    Kind.LOOP: lambda: Loop(1, 0, ""),
    Kind.COOPERATING: lambda: Cooperating(Cooperators()),
    Kind.INNER: lambda: Inner("loop"),
    Kind.CALL: lambda: OwnCall(Time(0), 0.0, None, 0),
    Kind.TURN: lambda: Turn(Body("turn"), 0),
}


def _follow(parts: Sequence[Any]) -> None:
    """Has the Deferreds be as their lines say that they are."""
    begin = 0
    for place, part in enumerate(parts):
        if part is None:
            line = parts[begin:place]
            change = _CHANGES.get(line[0]) if line and type(line[0]) is str else None
            if change is not None:
                change(*(part for part in line[1:] if part != " "))
            begin = place + 1
        elif begin == place and (part == "" or isinstance(part, _WHOLE)):
            begin += 1


def _fire(record: Record, outcome: Outcome) -> None:
    record.fired, record.outcome, record.waits_for = True, outcome, None


def _wait(record: Record, other: Record) -> None:
    record.waits_for = other


def _take(record: Record, giver: Record, outcome: Outcome) -> None:
    giver.outcome = NULL
    record.outcome = outcome


def _hand_over(giver: Record, receiver: Record, outcome: Outcome) -> None:
    giver.outcome = NULL
    receiver.outcome, receiver.waits_for = outcome, None


def _pause(record: Record) -> None:
    record.pauses += 1


def _unpause(record: Record) -> None:
    record.pauses -= 1


#: by the first words of lines, how they change what is known of Deferreds
_CHANGES: Dict[str, Callable[..., None]] = {
    "fire ": _fire,
    "set ": _fire,
    "wait ": _wait,
    "take ": _take,
    "hand ": _hand_over,
    "pause ": _pause,
    "unpause ": _unpause,
}
