"""The report: what is left and why, a row a root cause, the worst first."""

from __future__ import annotations

from typing import Callable, Iterator, List, Optional, Sequence, Set, Tuple, Type, TypeVar

from .causes import in_whom
from .findings import Finding, Kind, Severity, details_of
from .fold import Fold
from .hanging import Circle, End, Hanging, Root
from .inferred import Inferred
from .left import (
    At,
    Left,
    LeftCall,
    LeftDeferred,
    LeftDelivery,
    LeftFailure,
    LeftGetters,
    LeftLoop,
    LeftTask,
    LeftTick,
    LeftTimeout,
    LeftTokens,
    LeftUnhandled,
    LeftValues,
)
from .phrases import OfDeferred, OfLine, OfPlace, OfScript, OfTime, Part, Phrase, listed, words
from .places import NOWHERE, Places
from .records import By, Finish, GotNull, Made, Record, Row
from .scripts import Script
from .shaken import shaken_row
from .sizes import several
from .world import Shelf, T

_MOST_HELD = 6

_KINDS = list(Kind)


L = TypeVar("L")


def _guess(shelf: Shelf[T], name: str) -> List[Phrase]:
    """What isn't sure of objects of this name."""
    if name not in shelf.guessed:
        return []
    return [(f"the name {name} was bound more than once: which of them a line means is a guess",)]


def _is_of(phrase: Phrase, numbers: Sequence[Optional[int]]) -> bool:
    """Whether a phrase is about one of these Deferreds first."""
    first = next((part.number for part in phrase if isinstance(part, OfDeferred)), None)
    return first is not None and first in numbers


class Report:
    """What is left of a run."""

    def __init__(
        self,
        fold: Fold,
        left: Sequence[Left],
        finish: Finish,
        script: Script,
        inferred: Inferred,
        places: Places = NOWHERE,
        ticks: Callable[[int], str] = str,
        shaken: str = "",
    ) -> None:
        self._inferred = inferred
        self._places_of = places
        self._is_recorded = inferred.is_recorded
        self._ticks = ticks
        self._fold = fold
        self._left = left
        self._script = script
        self._hanging = Hanging(fold, left)
        self._told: Set[End] = set()
        #: the numbers of locks whose holders await each other's
        self._crossed: Set[int] = set()
        self._timers = {(timer.deferred, timer.due): timer.row for timer in fold.world.timers}
        self._failed = {one.number for one in left if isinstance(one, LeftFailure)}
        found = [*shaken_row(shaken, fold, places), *self._bad(finish), *self._open(), *self._notes()]
        found += inferred.went_on()
        found += inferred.kept(list(self._of(LeftGetters)))
        found += inferred.not_returned()
        found += inferred.odd({record.number for record in fold.records.values() if record.swallowed})
        found += inferred.overtaken()
        self.findings: List[Finding] = sorted(found, key=lambda finding: _KINDS.index(finding.kind))

    def count(self, severity: Severity) -> int:
        """How many rows there are of it."""
        return sum(finding.severity is severity for finding in self.findings)

    @property
    def is_clean(self) -> bool:
        """Whether it has no row at all."""
        return not self.findings

    @property
    def leaves_nothing(self) -> bool:
        """Whether there is nothing to look at, and nothing left."""
        return not self.count(Severity.BAD) + self.count(Severity.LEFT)

    def _of(self, kind: Type[L]) -> Iterator[L]:
        return (one for one in self._left if isinstance(one, kind))

    def _held(self, end: End, but: Sequence[int] = ()) -> List[Phrase]:
        """Who hangs on this, each with its reason."""
        self._told.add(end)
        held = [number for number in self._hanging.on.get(end, []) if number not in but]
        said = [self._hanging.reason(number) + self._where(number) for number in held[:_MOST_HELD]]
        if len(held) > _MOST_HELD:
            said.append((f"and {len(held) - _MOST_HELD} more hang on this",))
        return said

    # what is to be looked at

    def _bad(self, finish: Finish) -> Iterator[Finding]:
        if finish is not Finish.WHOLE:
            yield self._stopped(finish)
        for unhandled in self._of(LeftUnhandled):
            if unhandled.row < len(self._fold.rows):
                yield self._unhandled(unhandled.row)
        for failure in self._of(LeftFailure):
            if failure.number in self._fold.records:
                yield self._failure(self._fold.records[failure.number])
        for end in list(self._hanging.on):
            if isinstance(end, Circle):
                yield self._circle(end)
        for ring in self._inferred.crossed(list(self._of(LeftTokens))):
            self._crossed.update(link.lock for link in ring)
            bodies = [link.held.body for link in ring]
            waiting = [phrase for link in ring for phrase in self._held(Root(At.LOCK, link.lock)) if not _is_of(phrase, bodies)]
            yield self._inferred.circle(ring, waiting)

    def _stopped(self, finish: Finish) -> Finding:
        """The limit was reached, or the text was cut off; the sides that still ran are its details."""
        details: List[Phrase] = []
        running = [one.number for one in self._of(LeftDeferred) if one.running]
        for number in running[:_MOST_HELD]:
            record = self._fold.records.get(number)
            since = record.runs_since if record is not None else None
            begun = words(", from ", OfLine(since), ",") if since is not None else words()
            details.append(("a callback of ", OfDeferred(number), *begun, " hadn't ended"))
        if len(running) > _MOST_HELD:
            details.append((f"nor had those of {len(running) - _MOST_HELD} more",))
        for number in running:
            details += self._held(Root(At.DEFERRED, number), [number])
        last = len(self._fold.rows) - 1
        kind, said = Kind.STOPPED, "the run stopped at the limit of its journal"
        if finish is Finish.UNMET and last >= 0:
            details += self._unmet(self._fold.rows[last])
        if finish is Finish.UNMET:
            kind, said = Kind.UNMET, "a Deferred isn't as the script expects, and the run ended there"
        if finish is Finish.CUT:
            kind, said = Kind.CUT, f"the text ends before {self._missing()}: how the run went on isn't known"
        return Finding(Severity.BAD, kind, (said,), tuple(details), last if last >= 0 else None)

    def _unmet(self, row: Row) -> List[Phrase]:
        """What was expected of a Deferred, and what it is; or that its name is bound to none."""
        expected = row.entry.expected
        if row.entry.word == "unbound" and row.event is not None:
            expected = self._script.expected(row.event)
        what = words(", and ", OfScript(expected), " was expected") if expected else words()
        if row.entry.word == "unbound":
            return [("no Deferred has the name ", OfScript(row.entry.line[row.entry.head :]), *what)]
        is_now = row.entry.line[row.entry.head :].removesuffix(f" expected {row.entry.expected}")
        return [(OfDeferred(row.entry.deferred), " is ", OfScript(is_now), *what)]

    def _missing(self) -> str:
        """What a text that was cut off lacks: outcomes, or only what comes after them."""
        every = len(self._fold.records)
        missing = every - self._fold.known_outcomes
        return f"the outcomes of {missing} of {several(every, 'Deferred', 'Deferreds')}" if missing else "what is left"

    def _unhandled(self, place: int) -> Finding:
        row = self._fold.rows[place]
        acting = self._fold.said_by(row.actor)
        left: List[Phrase] = (
            [("left ", *acting) if acting[:1] != ("after ",) else acting] if acting else []
        )
        said: Phrase = (OfScript(row.entry.line[row.entry.head :]),)
        return Finding(Severity.BAD, Kind.UNHANDLED, said, tuple(left), place)

    def _failure(self, record: Record) -> Finding:
        text = record.end.removeprefix("paused ").removeprefix("fail ")
        origin = record.origin
        details: List[Phrase] = []
        if origin is not None and origin != record.fired:
            row = self._fold.rows[origin]
            head = row.entry.line[: row.entry.head].rstrip()
            details.append(("it comes from ", OfLine(origin), ": ", OfScript(head)))
        elif origin is not None and record.fired_by and record.begun is None:
            details.append(("fired by ", *record.fired_by))
        details += self._inferred.called(record)
        details += self._begun(record)
        if record.pauses and record.paused_at is not None:
            details.append(("it is paused since ", OfLine(record.paused_at)))
            details += self._held(Root(At.DEFERRED, record.number), [record.number])
        said: Phrase = (OfDeferred(record.number), " ends with ", OfScript(text))
        return Finding(Severity.BAD, Kind.FAILURE, said, tuple(details), origin)

    def _begun(self, record: Record) -> List[Phrase]:
        """The cancel with which its failure began."""
        if record.begun is None:
            return []
        cancel = self._fold.rows[record.begun]
        by = in_whom(self._fold.said_by(cancel.actor))
        return [("it began with cancel ", OfDeferred(cancel.entry.deferred), *by, ", ", OfLine(cancel.place))]

    def _circle(self, circle: Circle) -> Finding:
        said: Phrase = ()
        for number in (*circle.ring, circle.ring[0]):
            said += words(" → ", OfDeferred(number)) if said else words(OfDeferred(number))
        first = self._fold.records.get(circle.ring[0])
        details = details_of(
            [("each waits for the next: nobody can end this",)], self._held(circle, circle.ring)
        )
        row = (
            (first.waits_at if first.waits_at is not None else first.awaits_at)
            if first is not None
            else None
        )
        return Finding(Severity.BAD, Kind.CIRCLE, said, details, row)

    # what is left

    def _open(self) -> Iterator[Finding]:
        yield from self._roots()
        for one in self._left:
            finding = self._object(one)
            if finding is not None:
                yield finding
        for end, held in self._hanging.on.items():
            if end not in self._told:
                record = self._fold.records.get(held[0])
                yield Finding(
                    Severity.LEFT,
                    Kind.WAITING,
                    self._hanging.reason(held[0]),
                    details_of(self._held(end, held[:1])),
                    record.row if record is not None else None,
                )

    def _roots(self) -> Iterator[Finding]:
        """Deferreds that hang on nothing else."""
        for one in self._of(LeftDeferred):
            end = Root(At.DEFERRED, one.number)
            record = self._fold.records.get(one.number)
            if end in self._told or end not in self._hanging.on or record is None:
                continue
            if record.fired is None:
                yield self._unfired(record, end)
            elif record.number not in self._failed:
                yield self._paused(record, end)

    def _unfired(self, record: Record, end: End) -> Finding:
        paused = ", which is paused too" if record.pauses else ""
        pairs = several(record.pairs, "pair waits", "pairs wait")
        stopped: List[Phrase] = []
        if record.awaits is not None:
            stopped = [("its body has awaited ", OfDeferred(record.awaits), *self._inferred.awaits_at(record), ", and didn't end")]
        places = self._places(record) if record.made is Made.ACTION else ()
        details = details_of(
            self._inferred.made_at(record),
            self._inferred.called(record),
            self._inferred.among(record),
            self._inferred.others_fired(record),
            [places],
            stopped,
            [(pairs,)] if record.pairs else [],
            self._held(end, [record.number]),
        )
        said: Phrase = ("nobody fired ", OfDeferred(record.number), paused)
        return Finding(Severity.LEFT, Kind.UNFIRED, said, details, record.row)

    def _where(self, number: int) -> Phrase:
        """Where in the program a body awaits, or a Deferred was made that waits for something, if that is known."""
        record = self._fold.records.get(number)
        if record is not None and record.awaits is not None:
            called = [(": ", *phrase) for phrase in self._inferred.called(record)]
            return words(*self._inferred.awaits_at(record), *(called[0] if called else ()))
        place = self._inferred.place_of(record) if record is not None else None
        return words(", made at ", OfPlace(place)) if place is not None else words()

    def _places(self, record: Record) -> Phrase:
        """Where the script fires a Deferred of this name, or makes one that something else is to fire."""
        if self._is_recorded:
            return self._lines(record)
        if not self._script.events or not record.names:
            return ()
        for word, places in (
            ("fire", self._script.firing(record.names)),
            ("make", self._script.making(record.names)),
        ):
            if places:
                shown: List[Part] = [OfScript(place) for place in places]
                return (f"actions of the script that {word} one of this name: ", *listed(shown, 3))
        return ("no action of the script fires a Deferred of this name",)

    def _lines(self, record: Record) -> Phrase:
        """The lines of the program that fire a Deferred of this name."""
        known = [self._places_of.of_action(pointer) for pointer in self._script.firing(record.names)]
        lines = [place for place in dict.fromkeys(known) if place is not None]
        return ("lines that fire one of this name: ", *listed([OfPlace(place) for place in lines], 3)) if lines else ()

    def _paused(self, record: Record, end: End) -> Finding:
        times = f" {record.pauses} times" if record.pauses > 1 else ""
        said: Phrase = (OfDeferred(record.number), f" is paused{times}")
        return Finding(
            Severity.LEFT,
            Kind.PAUSED,
            said,
            details_of(self._held(end, [record.number])),
            record.paused_at,
        )

    def _object(self, one: Left) -> Optional[Finding]:
        """The row of an object that is left; None if what is left is no object."""
        if isinstance(one, LeftTokens):
            return self._tokens(one)
        if isinstance(one, LeftGetters):
            return self._getters(one)
        if isinstance(one, (LeftCall, LeftTick, LeftTimeout, LeftDelivery)):
            return self._due(one)
        if isinstance(one, LeftLoop):
            return self._loop(one)
        return self._task(one) if isinstance(one, LeftTask) else None

    def _tokens(self, one: LeftTokens) -> Optional[Finding]:
        lock = self._fold.world.locks.at(one.number)
        if lock is None or one.number in self._crossed:
            return None
        waiting = self._held(Root(At.LOCK, one.number))
        found = self._inferred.token(one, lock, waiting)
        return found._replace(details=found.details + tuple(_guess(self._fold.world.locks, lock.name)))

    def _getters(self, one: LeftGetters) -> Optional[Finding]:
        queue = self._fold.world.queues.at(one.number)
        if queue is None:
            return None
        waits = several(len(one.waiting), "Deferred waits", "Deferreds wait")
        said: Phrase = (f"{waits} for a value of {queue.name}, and nothing is put",)
        made, got = self._inferred.thing_made_at(queue.name), self._inferred.getters(queue)
        return Finding(Severity.LEFT, Kind.GETTER, said, details_of(made, got, self._held(Root(At.QUEUE, one.number))), queue.row)

    def _due(self, one: Left) -> Optional[Finding]:
        world = self._fold.world
        when = words(", and the run ended at ", OfTime(world.now))
        if isinstance(one, LeftCall):
            call = world.calls.at(one.number)
            name, row = (call.name, call.row) if call is not None else ("", None)
            reset = call.reset if call is not None else None
            details: Tuple[Phrase, ...] = () if reset is None else (("it was reset in ", OfLine(reset)),)
            return Finding(
                Severity.LEFT, Kind.CALL, ("delayed call ", name, " is due at ", OfTime(one.due), *when), details, row
            )
        if isinstance(one, LeftTick):
            tick = world.due_ticks.get(one.cooperator)
            row = tick.row if tick is not None else None
            whose = f" of {one.cooperator}" if one.cooperator else ""
            return Finding(Severity.LEFT, Kind.TICK, (f"a tick{whose} is due at ", OfTime(one.due), *when), (), row)
        if isinstance(one, LeftTimeout):
            row = self._timers.get((one.deferred, one.due))
            said: Phrase = ("the timer of ", OfDeferred(one.deferred), " is due at ", OfTime(one.due), *when)
            return Finding(Severity.LEFT, Kind.TIMER, said, (), row)
        if isinstance(one, LeftDelivery):
            job = world.jobs.get(one.job)
            said = (
                f"the result of job {one.job} for ",
                OfDeferred(one.deferred),
                " is due at ",
                OfTime(one.due),
                *when,
            )
            held = self._held(Root(At.JOB, one.job), [one.deferred])
            return Finding(
                Severity.LEFT, Kind.JOB, said, tuple(held), job.later if job is not None else None
            )
        return None

    def _loop(self, one: LeftLoop) -> Optional[Finding]:
        loop = self._fold.world.loops.at(one.number)
        if loop is None:
            return None
        said: Phrase = (f"loop {loop.name} goes on, its next turn is due at ", OfTime(one.due or 0))
        if one.due is None:
            said = (f"loop {loop.name} goes on, its last turn isn't over",)
            if one.waits_for:
                said += (" and waits for ", *listed([OfDeferred(number) for number in one.waits_for], 3))
        row = loop.later if one.due is not None and loop.later is not None else loop.turned
        details = details_of(
            self._held(Root(At.LOOP, one.number)), _guess(self._fold.world.loops, loop.name)
        )
        return Finding(Severity.LEFT, Kind.LOOP, said, details, row)

    def _task(self, one: LeftTask) -> Optional[Finding]:
        task = self._fold.world.tasks.at(one.number)
        if task is None:
            return None
        said: Phrase = (f"task {task.name} still takes turns",)
        if one.waits_for:
            said = (f"task {task.name} is held by ", *listed([OfDeferred(n) for n in one.waits_for], 3))
        elif one.pauses > 0:
            said = (f"task {task.name} is paused",)
        row = task.held[1] if task.held is not None else task.row
        details = details_of(
            self._held(Root(At.TASK, one.number)), _guess(self._fold.world.tasks, task.name)
        )
        return Finding(Severity.LEFT, Kind.TASK, said, details, row)

    # notes

    def _notes(self) -> Iterator[Finding]:
        for one in self._of(LeftValues):
            queue = self._fold.world.queues.at(one.number)
            if queue is not None and not self._inferred.is_pool(queue):
                were = several(
                    one.values,
                    f"value of {queue.name} was never got",
                    f"values of {queue.name} were never got",
                )
                row = queue.stored[queue.taken] if queue.count else queue.row
                yield Finding(Severity.NOTE, Kind.STORED, (were,), (), row)
        for record in self._fold.records.values():
            for place in record.refused:
                yield from self._refused(record, place)
            for place in record.swallowed:
                yield self._swallowed(record, place)
        yield from map(self._got_null, self._fold.got_null)

    def _got_null(self, got: GotNull) -> Finding:
        """A second one that waited for a Deferred: the first took its value."""
        first = self._fold.rows[got.taken].arrows[0].target
        said = words(OfDeferred(got.taker), " got null from ", OfDeferred(got.giver), ", whose value was taken before")
        taken = words("it went to ", OfDeferred(first), " in ", OfLine(got.taken))
        return Finding(Severity.NOTE, Kind.GOT_NULL, said, (taken,), got.row)

    def _swallowed(self, record: Record, place: int) -> Finding:
        """A firing that came after a cancel: nobody got what it had."""
        row = self._fold.rows[place]
        fired_with = self._script.fired_with(row.actor.number) if row.actor.by is By.EVENT else ""
        answer: Part = OfScript(fired_with) if fired_with else "its answer"
        said: Phrase = ("a late firing of ", OfDeferred(record.number), " was swallowed: nobody got ", answer)
        details = details_of(
            self._cancelled(record, row), [self._by(row)], self._inferred.made_at(record), self._inferred.among(record), self._inferred.again(record)
        )
        return Finding(Severity.NOTE, Kind.SWALLOWED, said, details, place)

    def _cancelled(self, record: Record, late: Row) -> List[Phrase]:
        """The cancel that came before the firing of this row, and how long before."""
        if record.cancelled is None:
            return []
        ticks = late.time - self._fold.rows[record.cancelled].time
        return [(*self._inferred.cancelled_in(record.cancelled), f", {self._ticks(ticks)} before" if ticks else "")]

    def _by(self, row: Row) -> Phrase:
        """Who fires in this row, and where in the program, as far as these are known."""
        place = self._places_of.of_event(row.actor.number) if row.actor.by is By.EVENT else None
        at = words(" at ", OfPlace(place)) if place is not None else words()
        return words("by ", *row.cause, *at) if row.cause else words()

    def _refused(self, record: Record, place: int) -> Iterator[Finding]:
        """A second firing, unless the next line tells it as unhandled."""
        rows = self._fold.rows
        if place + 1 < len(rows) and rows[place + 1].entry.word == "unhandled":
            return
        said: Phrase = ("a second firing of ", OfDeferred(record.number))
        yield Finding(Severity.NOTE, Kind.REFUSED, said, details_of([self._by(rows[place])]), place)
