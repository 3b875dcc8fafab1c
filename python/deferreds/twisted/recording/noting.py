"""Writes what is recorded into the notes, and keeps in memory only what is still needed.

At the end of an event everything is written that is new: what was noted is dropped then. What can still change is an inline body that
awaits, a job, a loop and a Cooperator. A change is written as a note of its own.
"""

from __future__ import annotations

import asyncio
import gc
from contextvars import Context
from fractions import Fraction
from itertools import islice
from time import monotonic  # (by its own name: the program may replace that of the module)
from typing import Any, Callable, Dict, Iterable, List, Optional, Sequence, Tuple

from ..instruments.inner import Cancelled, Inner, OwnCall, Turn, TurnSide
from ..instruments.pace import Pace, Waiting
from ..instruments.settling import Entry, Loop, Step
from ..instruments.tasks import Cooperating, Cooperators, Word as CooperatorWord
from ..telling import KINDS as KINDS_OF_OBJECTS
from ..telling import Action, Advance, Ended, Failed, Frame, Record, Thing, Time, know_attributes
from ..texts import Outcome, Text, Value
from .arguments import Call
from .bodies import Body, Run, Steps, Unsayable
from .hiding import SECRETS
from .notation import BITS, KINDS, NONE, Has, Kind, Tag, Word
from .notes import NotesFile
from .places import Spot, Spots, is_own, is_running, lines_of, path_of, wanted_name
from .recorder import LATER, Recorder, growth
from .windows import NotedBody, Runs, Window, windowed

#: after how many parts of lines a segment ends at the latest, some 64 KiB
_MOST_PARTS = 8_192
#: how many times as long as a segment takes to be written it is waited at least before the next one
_PATIENCE = 20
#: the actions whose last item is the work of a job
_OF_JOBS = frozenset({"thread", "threadIn"})

_length: Callable[[List[Any]], int] = list.__len__
#: as plain numbers, which Python finds sooner
_RECORD, _BODY, _OUTCOME, _SPOT, _RUN = int(Tag.RECORD), int(Tag.BODY), int(Tag.OUTCOME), int(Word.SPOT), int(Word.RUN)
_BODIES, _RECORDS = int(Kind.BODY), int(Kind.RECORD)


class NotedSpots(Spots):
    """Where actions run, and the things that are made, as long as they aren't in the notes."""

    def __init__(self) -> None:
        super().__init__()
        self.made: List[Tuple[Thing, str, Spot]] = []

    def thing(self, kind: str, made_at: Spot) -> Thing:
        """Something of this kind that is made there, with a name."""
        thing = super().thing(kind, made_at)
        self.made.append((thing, kind, made_at))
        return thing


class NotedRecorder(Recorder):
    """Records a run of a program, and writes notes of it as it happens."""

    __slots__ = ("noting",)

    def __init__(self, kinds: frozenset[str] = KINDS_OF_OBJECTS, redact: str = SECRETS) -> None:
        super().__init__(kinds, redact)
        self.parts = Window()
        self.tell_line = self.parts.extend
        self.events, self.begins, self.records, self.quirks = Window(), Window(), Window(), Window()
        self.spots = NotedSpots()
        self.top.noted_as = 0
        #: what writes the notes
        self.noting = Noting(self)

    def new_body(self, kind: str, is_deep: bool = False) -> Any:
        """A body that the program hands to Twisted, which has a number."""
        if kind == "callback" and not is_deep:
            return self.noting.new_body(kind, self.frame.depth + 1)
        body = super().new_body(kind, is_deep)
        return self.noting.new_body(kind, body.depth) if isinstance(body, Body) else self.noting.number_steps(body)

    def begin_step(self, steps: Any) -> Body:
        """A step of a task begins."""
        body = self.noting.new_body("step", steps.depth)
        steps.bodies.append(body)
        self.noting.steps_going[id(steps)] = steps
        return body

    def begin_await(self, frame: Frame, record: Record) -> Action:
        """An inline body awaits a Deferred."""
        self.noting.going[id(frame)] = frame
        awaited = super().begin_await(frame, record)
        awaited.__dict__["awaited_in"] = frame
        return awaited

    def end_await(self, awaited: Any, value: object, outcome: Outcome) -> None:
        """What it awaited has come."""
        frame = awaited.__dict__.pop("awaited_in", None)
        if frame is not None:
            self.noting.going[id(frame)] = frame
        super().end_await(awaited, value, outcome)

    def end_inline(self, frame: Frame, result: object) -> None:
        """An inline body has ended."""
        self.noting.going[id(frame)] = frame
        super().end_inline(frame, result)

    def has_result(self, work: List[Any]) -> None:
        """The result of a job has come."""
        self.noting.results.append(work)

    def has_noted(self, inner: Any) -> None:
        """Something is noted there of what an object does by itself."""
        self.noting.inners[id(inner)] = inner

    def rests(self) -> None:
        """The reactor has run what was due, and may wait now."""
        self.noting.write_rest()


know_attributes(NotedBody("event", 0, Runs(0, lambda begun: None)), ("name", "alias", "helper"))


class Noting:
    """Makes segments of what is new, and drops it."""

    def __init__(self, recorder: NotedRecorder) -> None:
        self._recorder = recorder
        self._file: Optional[NotesFile] = None
        self._stop: Callable[[str], None] = lambda why: None
        #: the runs that have begun; the inline bodies, tasks and objects of which something is new, by their numbers of Python
        self.begun: List[Tuple[Runs, Run]] = []
        self.going: Dict[int, Any] = {}
        self.steps_going: Dict[int, Steps] = {}
        self.inners: Dict[int, Inner] = {}
        #: the work of jobs whose results have come; and of those that go on, by their numbers of Python, with the action
        self.results: List[List[Any]] = []
        self._works: Dict[int, Tuple[int, List[Any]]] = {}
        self._note_begun = self.begun.append
        #: how many objects of each kind there are, and how many the last segments had
        self._counts = [0] * len(KINDS)
        self._counts[Kind.RUN] = 1
        self._counted = list(self._counts)
        self._actions = 0
        #: the kinds and depths of bodies, and the depths of steps, that aren't in the notes
        self._bodies: List[Any] = []
        self._steps: List[Any] = []
        #: codes, by their numbers of Python, each with its number
        self._codes: Dict[int, Tuple[int, Any]] = {}
        #: the callers that are in the notes, as numbers of codes and instructions, each with its number
        self._callers: Dict[Tuple[int, ...], int] = {}
        self._out: List[Any] = []
        #: the times of the segment, and what is new in it: Deferreds without a line, loops, and what does something by itself
        self._times: Dict[int, int] = {}
        self._others: List[Record] = []
        self._other_things: List[Thing] = []
        self._loops: List[Loop] = []
        self._new_inners: List[Inner] = []
        #: the names of Cooperators that are in the notes
        self._names_of: Dict[int, int] = {}
        self._has_cooperators = self._has_pace = False
        #: how many steps are in the notes, and how much of the last one
        self._last_step: Optional[Step] = None
        self._step_count = 0
        self._of_step = (0, 0, 0)
        #: how many problems and classes, secrets and so on are in the notes
        self._written: Dict[str, int] = {}
        #: when the next segment may be written, though it is short
        self._next = 0.0
        self._is_writing = False
        #: whether asyncio's loop is asked to tell of its next turn
        self._is_asked = False
        self._ways: Dict[type, Callable[[Any], None]] = {
            Record: self._record,
            Time: self._time,
            Text: self._text,
            Outcome: self._outcome,
            Value: self._value,
            Action: self._action,
            Advance: self._action,
            Failed: lambda part: self._of_action(part.action, Tag.FAILED),
            Ended: lambda part: self._of_action(part.action, Tag.ENDED),
            NotedBody: lambda part: self._out.append(part.runs.number << BITS | Tag.BODY),
            Steps: lambda part: self._out.append(part.noted_as << BITS | Tag.STEPS),
            Turn: self._turn,
            OwnCall: lambda part: self._out.append(self._number(part, Kind.CALL) << BITS | Tag.CALL),
            Cancelled: lambda part: self._out.append(self._number(part.call, Kind.CALL) << BITS | Tag.CANCELLED),
            Thing: lambda part: self._out.append(self._thing_number(part) << BITS | Tag.THING),
            CooperatorWord: self._word,
            Unsayable: lambda part: self._out.extend((int(Tag.UNSAYABLE), part.reason, part.place, part.outcome)),
            Fraction: lambda part: self._out.extend((int(Tag.FRACTION), part.numerator, part.denominator)),
            list: self._list,
            tuple: self._list,
            dict: self._dict,
        }

    # when

    def begin(self, file: NotesFile, stop: Callable[[str], None]) -> None:
        """From here on notes are written into this file. `stop` is called with why, if they can't be made any more."""
        self._file, self._stop = file, stop
        growth.look, growth.looks_at = self._look, -1

    def _look(self, recorder: Recorder) -> None:
        """An event has ended."""
        if _length(self._recorder.parts) >= _MOST_PARTS or monotonic() >= self._next:
            self.write_rest()
        elif not self._is_asked:
            self._ask_loop()

    def _ask_loop(self) -> None:
        """Has asyncio's loop tell of its next turn, if it runs: it calls much of which no reactor knows."""
        loop = asyncio._get_running_loop()
        if loop is not None:
            self._is_asked = True
            loop.call_soon(self._write_asked, context=Context())

    def _write_asked(self) -> None:
        self._is_asked = False
        self.write_rest()

    def write_rest(self) -> None:
        """Writes what is new, if nothing happens now."""
        recorder, file = self._recorder, self._file
        if file is None or self._is_writing or not _length(recorder.parts) or growth.inside or not recorder.is_between_events():
            return
        begun = monotonic()
        try:
            file.add(self.segment())
        except Exception as error:  # (whatever it is, the program goes on)
            self._file = None
            self._stop(f"{type(error).__name__}: {error}")
        ended = monotonic()
        self._next = ended + _PATIENCE * (ended - begun)

    def finish(self, ended: Optional[int], how: str) -> None:
        """Writes what is left, also if an event is under way. So many events have ended."""
        file, self._file = self._file, None
        if file is not None:
            file.add([*self.segment(is_last=True), int(Word.END), ended, how])

    def segment(self, is_last: bool = False) -> List[Any]:
        """All that is new, which is dropped then. Python's collector, which might run code of the program's, is off meanwhile."""
        is_on = gc.isenabled()
        gc.disable()
        self._is_writing = True
        try:
            self._note_all()
            items = [*(count - before for count, before in zip(self._counts, self._counted)), *self._out]
            self._counted = list(self._counts)
            if not is_last:
                self._drop()
        finally:
            self._is_writing = False
            if is_on:
                gc.enable()
            self._out.clear()
        return items

    def _note_all(self) -> None:
        self._times.clear()
        self._others.clear()
        self._loops.clear()
        self._other_things.clear()
        self._new_inners.clear()
        for _, run in self.begun:
            self._number(run, Kind.RUN)
        self._note_made()
        self._note_events()
        self._note_runs()
        self._note_results()
        self._note_pace()
        self._note_cooperators()
        self._note_facts()
        self._note_inners()
        self._note_lines()
        self._note_others()

    # numbers

    def new_body(self, kind: str, depth: int) -> NotedBody:
        """A body, with a number."""
        counts = self._counts
        number = counts[_BODIES]
        counts[_BODIES] = number + 1
        self._bodies += (kind, depth)
        return NotedBody(kind, depth, Runs(number, self._note_begun))

    def number_steps(self, steps: Steps) -> Steps:
        """Likewise steps."""
        steps.noted_as = self._counts[Kind.STEPS]
        self._counts[Kind.STEPS] += 1
        self._steps.append(steps.depth)
        return steps

    def _number(self, thing: Any, kind: Kind) -> int:
        """The number of an object, which has one from now on."""
        number: int = thing.noted_as
        if number < 0:
            number = thing.noted_as = self._counts[kind]
            self._counts[kind] += 1
        return number

    def _inner_number(self, inner: Optional[Inner]) -> int:
        if inner is None:
            return NONE
        if inner.noted_as < 0:
            self._new_inners.append(inner)
        return self._number(inner, Kind.INNER)

    def _thing_number(self, thing: Optional[Thing]) -> int:
        if thing is None:
            return NONE
        if thing.noted_as < 0:
            self._other_things.append(thing)
        return self._number(thing, Kind.THING)

    def _record_number(self, record: Optional[Record]) -> int:
        if record is None:
            return NONE
        if record.noted_as < 0:
            self._others.append(record)
        return self._number(record, Kind.RECORD)

    # parts

    def _part(self, part: Any) -> None:
        """A part of a line or of an action."""
        kind = type(part)
        if part is None or kind is str or kind is bool or kind is float:
            self._out.append(part)
        elif kind is int:
            self._out.append(part << BITS)
        else:
            way = self._ways.get(kind)
            if way is not None:
                way(part)
            else:
                self._odd(part)

    def _odd(self, part: Any) -> None:
        """A part of a class that only seems to be another one: it is shown as what it is there."""
        if isinstance(part, int):
            self._part(int.__int__(part))
        else:
            self._part(str(part))

    def _record(self, record: Record) -> None:
        self._out.append(self._record_number(record) << BITS | Tag.RECORD)

    def _time(self, time: Time) -> None:
        known = self._times.get(id(time))
        if known is not None:
            self._out.append(known << BITS | Tag.TIME)
            return
        self._times[id(time)] = len(self._times)
        self._out.append(int(Tag.NEW_TIME))
        self._part(time.seconds)

    def _text(self, text: Text) -> None:
        self._out += (text.weight << BITS | Tag.TEXT, text.text)

    def _outcome(self, outcome: Outcome) -> None:
        self._out.append(int(Tag.OUTCOME))
        self._part(outcome.value)

    def _value(self, value: Value) -> None:
        self._out.append(int(Tag.VALUE))
        self._part(value.value)

    def _word(self, word: CooperatorWord) -> None:
        self._out += (self._number(word.cooperating, Kind.COOPERATING) << BITS | Tag.WORD, word.own_name, word.named)

    def _turn(self, turn: Turn) -> None:
        self._out.append(self._number(turn, Kind.TURN) << BITS | Tag.TURN)

    def _list(self, items: Sequence[Any]) -> None:
        self._out.append(len(items) << BITS | Tag.LIST)
        for item in items:
            self._part(item)

    def _dict(self, pairs: Dict[str, Any]) -> None:
        self._out.append(len(pairs) << BITS | Tag.DICT)
        for key, item in pairs.items():
            self._out.append(key)
            self._part(item)

    def _action(self, action: Action) -> None:
        """An action; one that isn't in the notes is written here."""
        if action.noted_as >= 0:
            self._out.append(action.noted_as << BITS | Tag.ACTION)
        else:
            self._out.append(int(Tag.NEW_ACTION))
            self._new_action(action)

    def _of_action(self, action: Action, tag: Tag) -> None:
        """A part that is a line if an action has a helper. One that is nowhere else has none."""
        self._out.append(action.noted_as << BITS | tag if action.noted_as >= 0 else "")

    def _new_action(self, action: Action) -> None:
        """What an action has."""
        attributes = action.__dict__
        has = _has_of(action) if attributes or type(action) is Advance else 0
        number = action.noted_as = self._actions
        self._actions += 1
        out = self._out
        append = out.append
        out += (has, _length(action))
        for item in action:
            kind = type(item)
            if kind is str:
                append(item)
            elif kind is Record and item.noted_as >= 0:
                append(item.noted_as << BITS | _RECORD)
            elif kind is NotedBody:
                append(item.runs.number << BITS | _BODY)
            else:
                self._part(item)
        if action[0] in _OF_JOBS:
            self._works[id(action[-1])] = number, action[-1]
        if has:
            self._attributes(action)

    def _attributes(self, action: Action) -> None:
        """What else is known of it."""
        for known in (action.raised, action.at, action.came):
            if known is not None:
                self._out.append(known)
        if action.raises is not None:
            self._part(action.raises)
        if action.inner is not None:
            self._out.append(self._inner_number(action.inner_of))
            self._notes(action.inner)

    def _notes(self, notes: Sequence[Tuple[int, Any]]) -> None:
        """What an object has done by itself."""
        self._out.append(len(notes))
        for place, what in notes:
            self._out.append(place)
            self._part(what)

    # what was made

    def _note_made(self) -> None:
        out = self._out
        if self._bodies:
            out += (int(Word.BODIES), len(self._bodies) // 2, *self._bodies)
            self._bodies.clear()
        if self._steps:
            out += (int(Word.STEPS), len(self._steps), *self._steps)
            self._steps.clear()
        self._note_things()
        records = self._recorder.records.here  # type: ignore[attr-defined]
        counts = self._counts
        for record in records:
            if record.noted_as < 0:
                record.noted_as = counts[_RECORDS]
                counts[_RECORDS] += 1
        self._note_records(records, True)

    def _note_things(self) -> None:
        """The things that were made, which have their names from here on."""
        spots: NotedSpots = self._recorder.spots  # type: ignore[assignment]
        made, spots.made = spots.made, []
        if not made:
            return
        str(made[0][0])
        for thing, _, _ in made:
            self._number(thing, Kind.THING)
        self._out += (int(Word.THINGS), len(made), made[0][0].noted_as)
        for thing, kind, made_at in made:
            self._out += (wanted_name(kind, made_at), self._inner_number(thing.inner))

    def _note_others(self) -> None:
        """The Deferreds and things that have come among the parts, and aren't among those that the program made."""
        while self._others:
            others, self._others = self._others, []
            self._note_records(others, False)
        for thing in self._other_things:
            self._out += (int(Word.OTHER_THING), thing.noted_as, thing.own_name, self._inner_number(thing.inner))

    def _note_records(self, records: Sequence[Record], are_made: bool) -> None:
        if not records:
            return
        out, codes = self._out, self._codes
        out += (int(Word.RECORDS), len(records))
        for record in records:
            made_in: Any = record.made_in
            hidden_of, made_at = record.hidden_of, record.made_at
            number = NONE if hidden_of is None else self._record_number(hidden_of)
            out += (record.noted_as, are_made, record.name, getattr(made_in, "noted_as", NONE), number)
            known = codes.get(id(made_at[1])) if made_at is not None else None
            if made_at is not None and known is not None:
                out += (made_at[0], known[0], made_at[2])
            else:
                self._spot(made_at)
        for record in records:
            if record.made_at is not None and len(record.made_at) > 3 and record.made_at[3] is not None:
                self._note_callers((int(Word.MADE_BY), record.noted_as), record.made_at[3])

    def _spot(self, made_at: Optional[Tuple[Any, ...]]) -> None:
        """Where something was made: the name of the function, its code, and the instruction."""
        if made_at is None:
            self._out.append(None)
            return
        name, code, instruction = made_at[:3]
        self._out.append(name)
        self._code(code)
        self._out.append(instruction)

    def _code(self, code: Any) -> None:
        """The number of a code, and what is known of it if it comes first."""
        if code is None:
            self._out.append(NONE)
            return
        known = self._codes.get(id(code))
        if known is not None:
            self._out.append(known[0])
            return
        number = len(self._codes)
        self._codes[id(code)] = number, code
        _, starts, lines = lines_of(code)
        file = code.co_filename
        self._out += (number, file, path_of(code), is_own(file), is_running(file), code.co_name, len(starts), *starts, *lines)

    # what happened

    def _note_events(self) -> None:
        recorder, out = self._recorder, self._out
        events: Window[Action] = recorder.events  # type: ignore[assignment]
        first = self._written.get("events", 0) - events.before
        begins: Window[int] = recorder.begins  # type: ignore[assignment]
        for event, begin in zip(events.here[first:], begins.here[first:]):
            out += (int(Word.EVENT), begin)
            self._new_action(event)
        self._written["events"] = len(events)

    def _note_runs(self) -> None:
        going = [run for run in self.going.values() if run.noted_as < self._counted[Kind.RUN]]
        for runs, run in self.begun:
            self._out += (_RUN, run.noted_as, runs.number, run.kind, run.depth, run.began)
            self._part(run.given)
            self._rest_of_run(run, run.actions)
        for run in going:
            self._out += (int(Word.RUN_GOES_ON), run.noted_as)
            last = run.actions[0] if run.written else None
            self._out += (last is not None, *((last.raised, last.caught, last.came) if last is not None else ()))
            self._rest_of_run(run, run.actions[run.written :])
        for steps in self.steps_going.values():
            self._out += (int(Word.STEPS_GO_ON), steps.noted_as, len(steps.bodies))
            self._out += [body.runs.number for body in steps.bodies]  # type: ignore[attr-defined]

    def _rest_of_run(self, run: Run, actions: Sequence[Action]) -> None:
        if run.end is None:
            self._out.append(None)
        else:
            self._part(run.end)
        self._out.append(len(actions))
        for action in actions:
            self._new_action(action)

    def _note_results(self) -> None:
        for work in self.results:
            known = self._works.pop(id(work), None)
            if known is not None:
                self._out += (int(Word.RESULT), known[0])
                self._part(work)
        self.results.clear()

    def _note_lines(self) -> None:
        recorder, out = self._recorder, self._out
        parts: List[Any] = recorder.parts.here  # type: ignore[attr-defined]
        out += (int(Word.PARTS), len(parts))
        append, part_of = out.append, self._part
        for part in parts:
            kind = type(part)
            if part is None or kind is str:
                append(part)
            elif kind is Record and part.noted_as >= 0:
                append(part.noted_as << BITS | _RECORD)
            elif kind is int:
                append(part << BITS)
            elif kind is Outcome and type(part.value) is int:
                out += (_OUTCOME, part.value << BITS)
            else:
                part_of(part)
        failed = [action.noted_as for action in recorder.failed if action.noted_as >= 0]
        if failed:
            out += (int(Word.FAILED), len(failed), *failed)
        self._note_spots()

    def _note_spots(self) -> None:
        noted, out, codes = self._recorder.spots.noted, self._out, self._codes
        every = iter(noted)
        for what, code, instruction, callers in zip(every, every, every, every):
            is_record = type(what) is Record
            out += (_SPOT, is_record, self._record_number(what) if is_record else what.noted_as)
            known = codes.get(id(code))
            if known is not None:
                out.append(known[0])
            else:
                self._code(code)
            out.append(instruction)
            if callers is not None:
                self._note_callers((int(Word.CALLERS),), callers)
        for call in self._recorder.spots.calls:
            self._note_call(call)
        for thing, made_at in self._recorder.spots.places_of_things:
            number = self._thing_number(thing)
            self._out += (int(Word.THING_MADE), number)
            self._spot(made_at)

    def _note_call(self, call: Call) -> None:
        """The arguments of an inline body, if its action is in the notes."""
        if call.action.noted_as >= 0:
            self._out += (int(Word.CALLED), call.action.noted_as, call.function, len(call.arguments))
            for name, value in call.arguments:
                self._out.append(name)
                self._part(value)

    def _note_callers(self, whose: Tuple[int, ...], callers: Sequence[Any]) -> None:
        """The number of these callers, and what is known of them if they come first."""
        codes = self._codes
        for code in callers[::2]:
            if id(code) not in codes:
                self._out.append(int(Word.CODE))
                self._code(code)
        key = tuple(item if place % 2 else codes[id(item)][0] for place, item in enumerate(callers))
        known = self._callers.get(key)
        if known is not None:
            self._out += (*whose, known)
            return
        number = self._callers[key] = len(self._callers)
        self._out += (*whose, number, len(key), *key)

    # facts

    def _fresh(self, name: str, items: Sequence[Any]) -> Sequence[Any]:
        """Those of these items that aren't in the notes."""
        first = self._written.get(name, 0)
        self._written[name] = len(items)
        return items[first:]

    def _note_facts(self) -> None:
        recorder, out = self._recorder, self._out
        for problem in self._fresh("problems", recorder.problems):
            out += (int(Word.PROBLEM), problem.reason, problem.place, problem.kind, problem.ended, self._inner_number(problem.inner))
        for place, entry in recorder.quirks.here:  # type: ignore[attr-defined]
            out += (int(Word.QUIRK), place, entry.value)
        for inner, entry in recorder.quirks_of:
            out += (int(Word.QUIRK_OF), self._inner_number(inner), entry.value)
        for place in self._fresh("clocks", recorder.further_clocks):
            out += (int(Word.FURTHER_CLOCK), place)
        for name, parent in self._fresh("classes", recorder.classes.declared):
            out += (int(Word.CLASS), name, parent)
        for pool in self._fresh("pools", recorder.pools):
            number = self._thing_number(pool.thing)
            out += (int(Word.POOL), number, pool.workers)
        self._note_secrets()
        out += (int(Word.FACTS), recorder.elsewhere, recorder.ended, recorder.has_had_clock)

    def _note_secrets(self) -> None:
        hiding = self._recorder.texts.hiding
        for is_firm, secrets in ((False, hiding.secrets), (True, hiding.firm)):
            first = self._written.get(f"secrets {is_firm}", 0)
            if len(secrets) > first:
                self._written[f"secrets {is_firm}"] = len(secrets)
                for text, name in islice(secrets.items(), first, None):
                    self._out += (int(Word.SECRET), text, name, is_firm)

    # times

    def _note_pace(self) -> None:
        pace: Optional[Pace] = self._recorder.pace
        if pace is None:
            return
        if not self._has_pace:
            self._has_pace = True
            pace.waiting = windowed(pace.waiting)
            self._out.append(int(Word.PACE))
        self._note_waiting(pace.waiting.here)  # type: ignore[attr-defined]
        self._note_steps(pace)
        for moved in pace.moved:
            self._out += (int(Word.MOVED), moved.action.noted_as, moved.before.noted_as, moved.waiting.entry.noted_as)
        for loop in self._loops:
            self._out += (int(Word.LOOP), loop.noted_as, loop.interval, loop.at, loop.place, self._inner_number(loop.owner))

    def _note_waiting(self, waiting: Iterable[Waiting]) -> None:
        for entry, due, delay in waiting:
            self._number(entry, Kind.ENTRY)
            self._out += (int(Word.WAITING), entry.order, entry.delay, self._loop_number(entry.loop), entry.turn, entry.moved)
            self._out += (NONE if entry.before is None else entry.before.noted_as, entry.inside)
            self._out.append(entry.loop is not None and entry.loop.is_loose)
            tick = entry.tick
            self._out.append(tick is not None)
            if tick is not None:
                self._out += (tick.delay, tick.further, self._inner_number(tick.owner))
            self._time(due)
            self._time(delay)

    def _loop_number(self, loop: Optional[Loop]) -> int:
        if loop is None:
            return NONE
        if loop.noted_as < 0:
            self._loops.append(loop)
        return self._number(loop, Kind.LOOP)

    def _note_steps(self, pace: Pace) -> None:
        """The steps, of which the last may go on."""
        steps = pace.steps
        place = 0 if self._last_step is None else next(place for place, step in enumerate(steps) if step is self._last_step)
        for step in steps[place:]:
            if step is not self._last_step:
                self._begin_step(pace, step)
            made, ended, starts = self._of_step
            self._out += (int(Word.STEP_GOES_ON), step.closed, len(step.made) - made, len(step.ended) - ended, len(step.starts))
            self._out += [entry.noted_as for entry in step.made[made:]]
            for entry, is_inside in step.ended[ended:]:
                self._out += (entry.noted_as, is_inside)
            for loop in step.starts:
                self._out += (self._loop_number(loop), loop.at)
            self._of_step = len(step.made), len(step.ended), len(step.starts)

    def _begin_step(self, pace: Pace, step: Step) -> None:
        advance = pace.advances.get(step)
        entry = NONE if step.entry is None else step.entry.noted_as
        self._out += (int(Word.STEP), entry, step.real, NONE if advance is None else advance.noted_as)
        self._last_step, self._of_step = step, (0, 0, 0)

    # Cooperators

    def _note_cooperators(self) -> None:
        known: Optional[Cooperators] = self._recorder.cooperator
        if known is None:
            return
        if not self._has_cooperators:
            self._has_cooperators = True
            self._out += (int(Word.COOPERATORS), self._inner_number(known.inner))
        self.inners[id(known.inner)] = known.inner
        for cooperating in known.all():
            self._note_cooperating(cooperating, cooperating is known.first)

    def _note_cooperating(self, cooperating: Cooperating, is_first: bool) -> None:
        number, thing = self._number(cooperating, Kind.COOPERATING), self._thing_number(cooperating.thing)
        inner = self._inner_number(cooperating.inner)
        if cooperating.inner is not None:
            self.inners[id(cooperating.inner)] = cooperating.inner
        unnamed = [action.noted_as for action in cooperating.unnamed if action.noted_as >= 0]
        if unnamed:
            self._out += (int(Word.UNNAMED), number, len(unnamed), *unnamed)
        is_new = self._names_of.get(number) != thing
        if not (is_new or cooperating.delays or cooperating.ticks):
            return
        self._names_of[number] = thing
        self._out += (int(Word.COOPERATING), number, is_first, cooperating.is_further, thing, inner, len(cooperating.delays))
        for delay in cooperating.delays:
            self._time(delay)
        self._out.append(len(cooperating.ticks))
        for tick in cooperating.ticks:
            self._out += (tick.steps, tick.left, NONE if tick.event is None else tick.event.noted_as, tick.before_looked)

    # what objects do by themselves

    def _note_inners(self) -> None:
        """What is noted there. While it is written, more objects may come."""
        done: Dict[int, Inner] = {}
        while self.inners or self._new_inners:
            inners, self.inners = self.inners, {}
            inners.update((id(inner), inner) for inner in self._new_inners)
            self._new_inners = []
            for inner in inners.values():
                if id(inner) not in done:
                    done[id(inner)] = inner
                    self._note_inner(inner)
        self.inners = done  # (they are emptied afterwards)

    def _note_inner(self, inner: Inner) -> None:
        number = self._inner_number(inner)
        out = self._out
        out += (int(Word.INNER), number, inner.kind, inner.unclear)
        self._spot(inner.made_at)
        if inner.used_in:
            out += (int(Word.USED_IN), number, len(inner.used_in), *(frame.noted_as for frame in inner.used_in))
        for word, quirks in ((Word.QUIRK_AS_SUCH, inner.quirks_as_such), (Word.QUIRK_OTHERWISE, inner.quirks)):
            for place, entry in quirks:
                out += (int(word), number, place, entry.value)
        for call, made_at in inner.calls:
            out += (int(Word.CALL), number, self._number(call, Kind.CALL), call.due, call.scheduled_at)
            out.append(NONE if call.waiting is None else call.waiting.entry.noted_as)
            self._time(call.delay)
            self._spot(made_at)
        for side in inner.sides:
            out += (int(Word.SIDE), number, side.run.noted_as)
            self._notes(side.notes)
        for turn in inner.turns[1 if inner.turns and inner.turns[0] is self._last_turn(inner) else 0 :]:
            out += (int(Word.TURN), number, self._number(turn, Kind.TURN), turn.body.runs.number, turn.number, turn.began_at)
        for error, made_at in inner.errors:
            self._note_error(number, error, made_at)
        self._note_unsettled(inner)

    @staticmethod
    def _last_turn(inner: Inner) -> Optional[Turn]:
        """The last turn that is in the notes."""
        return inner.unsettled[2] if inner.unsettled is not None else None

    def _note_error(self, number: int, error: Any, made_at: Any) -> None:
        self._thing_number(error.thing)
        self._out += (int(Word.ERROR), number, error.event.noted_as, error.thing.noted_as, error.waiting.entry.noted_as, error.at)
        self._spot(made_at)
        self._new_action(error.action)
        self._new_action(error.advance)

    def _note_unsettled(self, inner: Inner) -> None:
        """The calls that have run or were cancelled since, and the turns that may have gone on."""
        before: Tuple[List[OwnCall], List[Turn], Optional[Turn]] = ([], [], None) if inner.unsettled is None else inner.unsettled
        calls = [*before[0], *(call for call, _ in inner.calls)]
        turns = [*before[1], *(turn for turn in inner.turns if turn not in before[1])]
        waiting = []
        for call in calls:
            if call.ran_at is None and call.cancelled_at is None:
                waiting.append(call)
                continue
            self._out += (int(Word.CALL_IS_OVER), call.noted_as, call.ran_at, call.cancelled_at)
            self._part(call.raises)
            self._notes(call.notes)
        for turn in turns:
            self._note_turn(turn)
        last = inner.turns[-1] if inner.turns else None
        inner.unsettled = waiting, [turn for turn in turns if not turn.sides or turn is last], last

    def _note_turn(self, turn: Turn) -> None:
        self._out += (int(Word.TURN_GOES_ON), turn.noted_as, self._record_number(turn.record), turn.named_at)
        self._out += (len(turn.added_at), *turn.added_at, len(turn.sides))
        for pair, side in turn.sides:
            self._note_side(pair, side)

    def _note_side(self, pair: int, side: TurnSide) -> None:
        self._out += (pair, side.ran_at)
        self._part(side.given)
        self._part(side.raises)
        self._notes(side.notes)

    # what isn't needed any more

    def _drop(self) -> None:
        """Drops what is in the notes."""
        recorder: Any = self._recorder
        for window in (recorder.parts, recorder.records, recorder.quirks):
            window.drop()
        recorder.events.drop(1)
        recorder.begins.drop(1)
        recorder.failed.clear()
        recorder.quirks_of.clear()
        recorder.spots.forget()
        for runs, run in self.begun:
            runs.drop()
            _forget_run(run)
        for run in self.going.values():
            _forget_run(run)
        for steps in self.steps_going.values():
            steps.bodies.clear()
        for inner in self.inners.values():
            _forget_inner(inner)
        for kept in (self.begun, self.going, self.steps_going, self.inners):
            kept.clear()  # type: ignore[attr-defined]
        self._drop_times()

    def _drop_times(self) -> None:
        pace: Any = self._recorder.pace
        if pace is not None:
            for entry, _, _ in pace.waiting.here:
                entry.before = None
            pace.waiting.drop()
            pace.moved.clear()
            del pace.steps[1:-1]
            pace.advances.clear()
        if self._recorder.cooperator is not None:
            for cooperating in self._recorder.cooperator.all():
                for kept in (cooperating.unnamed, cooperating.delays, cooperating.ticks):
                    kept.clear()


def _has_of(action: Action) -> int:
    """What an action has beside its items."""
    has = Has.ADVANCE if type(action) is Advance else Has(0)
    for flag, is_so in (
        (Has.RAISED, action.raised is not None),
        (Has.CAUGHT, action.caught),
        (Has.AT, action.at is not None),
        (Has.CAME, action.came is not None),
        (Has.RAISES, action.raises is not None),
        (Has.INNER, action.inner is not None),
    ):
        if is_so:
            has |= flag
    return int(has)


def _forget_run(run: Any) -> None:
    """Drops what was done in a run; of an inline body that awaits the last action is kept, which is the await."""
    if run.kind == "inline" and not run.has_fired:
        run.noted = run.noted[-1:] if run.noted else None
        run.written = 0 if run.noted is None else 1
        return
    run.noted = run.end = run.given = run.outer = None


def _forget_inner(inner: Inner) -> None:
    """Drops what was noted, but for the last turn."""
    inner.used_in.clear()
    for kept in (inner.calls, inner.quirks_as_such, inner.quirks, inner.sides, inner.errors):
        kept.clear()  # type: ignore[attr-defined]
    del inner.turns[:-1]


know_attributes(NotedRecorder(), LATER)
