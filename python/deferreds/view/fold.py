"""The fold: one pass over the lines of a journal, which says at each what every Deferred and object has come to.

A line is written before the change that it tells of, so the change stands at its row.
"""

from __future__ import annotations

from typing import Callable, Dict, List, Optional, Sequence

from .causes import Causes
from .lines import NULL, End, Entry
from .nesting import LAST_POSTS, Nesting, Place
from .phrases import OfDeferred, OfEvent, OfLine, OfScript, OfTime, Phrase, listed
from .records import Actor, ArrowKind, Bracket, BracketKind, By, GotNull, Made, Record, Row
from .sizes import several
from .world import Call, Job, Lock, Loop, Phase, Queue, Task, Tick, Wait, World

_FIRINGS = frozenset({"fire", "refuse", "swallow"})

#: how many lines or Deferreds a problem names
_MOST_NAMED = 3


class Fold:
    """What a run has come to, after its last line; with the place of each line, where the facts tell it."""

    def __init__(
        self, entries: Sequence[Entry], ends: Sequence[End], places: Optional[Sequence[Place]] = None
    ) -> None:
        self.rows: List[Row] = []
        self.records: Dict[int, Record] = {}
        self.world = World()
        self.brackets: List[Bracket] = []
        self.unhandled: List[Row] = []
        self.got_null: List[GotNull] = []
        self.problems: List[Phrase] = []
        #: the rows of lines that aren't known, and the Deferreds that no line has made
        self._unknown: List[int] = []
        self._unmade: List[int] = []
        self.knows_events = places is not None
        self.known_outcomes = 0
        self.nesting = Nesting(places)
        self._entries = entries
        self._causes = Causes()
        self._event: Optional[int] = None
        #: whom a cancel reaches, as long as nobody begins or ends to wait
        self._reached: Dict[int, Optional[int]] = {}
        self._changes = self._handlers()
        for entry in entries:
            self._step(entry, places[entry.row].event if places is not None else None)
        self._finish(ends)

    # what the run has come to

    def said_by(self, actor: Actor) -> Phrase:
        """Who acts, in words."""
        if actor.by is By.SIDE:
            return ("a callback of ", OfDeferred(actor.number))
        if actor.by is By.SECTION:
            return (OfScript(self.rows[actor.number].entry.line),)
        if actor.by is By.AFTER:
            return ("after ", OfScript(self.rows[actor.number].entry.line), ", ", OfLine(actor.number))
        if actor.by is By.NOBODY:
            return ()
        if actor.number == LAST_POSTS:
            return ("the last posts",)
        return (OfEvent(actor.number),)

    def end_of_waits(self, number: int) -> Optional[int]:
        """Whom a cancel of this Deferred reaches: the first that doesn't wait; None where the waits go round."""
        path: Dict[int, None] = {}
        at: Optional[int] = number
        while at is not None and at not in self._reached:
            waits = self.records[at].waits if at in self.records else None
            if at in path:
                at = None
            elif waits is None:
                self._reached[at] = at
            else:
                path[at] = None
                at = waits
        reached = self._reached[at] if at is not None else None
        self._reached.update(dict.fromkeys(path, reached))
        return reached

    # the walk

    def _step(self, entry: Entry, event: Optional[int]) -> None:
        before = self.rows[-1] if self.rows else None
        if event is not None and event != self._event:
            self._event = event
            self._causes.begin_event()
            before = None
        row = Row(entry, self.world.now, event)
        self.rows.append(row)
        side = self.nesting.closed(row)
        if side is not None:
            row.closes = True
            self._touch(row, side.deferred).runs_since = None
        self.nesting.lay(row, self.rows)
        change = self._changes.get(entry.word)
        if change is None:
            self._unknown.append(row.place)
        else:
            change(row, entry, before)
        row.time = self.world.now
        for number in row.names:
            self.records[number].look_at(row.place)

    def _finish(self, ends: Sequence[End]) -> None:
        if self._unknown:
            counted = several(len(self._unknown), "line isn't known", "lines aren't known")
            shown = listed([OfLine(place) for place in self._unknown], _MOST_NAMED)
            self.problems.append((f"{counted}: ", *shown))
        if self._unmade:
            counted = several(len(self._unmade), "Deferred is made in no line", "Deferreds are made in no line")
            shown = listed([OfDeferred(number) for number in self._unmade], _MOST_NAMED)
            self.problems.append(("the beginning is missing: ", f"{counted}: ", *shown))
        for place in self.nesting.crossed:
            self.problems.append((OfLine(place), " ends a callback that isn't the innermost"))
        self.known_outcomes = len(ends)
        for end in ends:
            record = self.records.get(end.number)
            if record is None:
                self.problems.append(
                    (f"there is an outcome of #{end.number}, and no line in which it was made",)
                )
                continue
            record.end = end.state
            if record.tells() != end.state:
                self.problems.append(
                    ("the lines tell of ", OfDeferred(end.number), " otherwise than its outcome does")
                )
        for record in self.records.values():
            record.end = record.end or record.tells()

    def _touch(self, row: Row, number: int) -> Record:
        """The Deferred that the row names. A journal that begins in the middle names some that it hasn't made."""
        record = self.records.get(number)
        if record is None:
            record = self.records[number] = Record(number, "-", row.place)
            self._unmade.append(number)
        row.name(number)
        record.last = row.place
        return record

    def _arrow(self, row: Row, kind: ArrowKind, target: int) -> None:
        """An arrow from who acts."""
        source = row.actor.number if row.actor.by is By.SIDE else None
        row.draw(kind, source, target)

    def _link(self, start: int, row: Row, kind: BracketKind) -> None:
        self.brackets.append(Bracket(start, row.place, kind))

    def _handlers(self) -> "Dict[str, Callable[[Row, Entry, Optional[Row]], None]]":
        handlers: Dict[str, Callable[[Row, Entry, Optional[Row]], None]] = {
            "new": self._new,
            "name": self._name,
            "add": self._add,
            "fire": self._fire,
            "refuse": self._refuse,
            "swallow": self._swallow,
            "run": self._run,
            "set": self._set,
            "take": self._take,
            "wait": self._wait,
            "hand": self._hand,
            "pause": self._pause,
            "unpause": self._unpause,
            "cancel": self._cancel,
            "await": self._await,
            "unhandled": self._unhandled,
            "lock": self._lock,
            "semaphore": self._lock,
            "acquire": self._acquire,
            "release": self._release,
            "queue": self._queue,
            "put": self._put,
            "get": self._get,
            "later": self._later,
            "uncall": self._uncall,
            "reset": self._reset,
            "advance": self._advance,
            "call": self._call,
            "timeout": self._timeout,
            "loop": self._loop,
            "turn": self._turn,
            "stop": self._stop,
            "task": self._task,
            "taskin": self._task,
            "tick": self._tick,
            "tickin": self._tick,
            "hold": self._hold,
            "end": self._end,
            "pausetask": self._pause_task,
            "resumetask": self._resume_task,
            "whendone": self._when_done,
            "job": self._job,
            "deliver": self._deliver,
        }
        for word in ("note", "step", "drain", "post", "body", "units", "unitsin", "stopcooperator", "expect", "unmet", "unbound"):
            handlers[word] = _nothing
        return handlers

    # Deferreds

    def _new(self, row: Row, entry: Entry, before: Optional[Row]) -> None:
        number = entry.deferred
        self.records[number] = Record(number, entry.name, row.place)
        row.name(number)

    def _name(self, row: Row, entry: Entry, before: Optional[Row]) -> None:
        self._touch(row, entry.deferred).names.append(entry.name)

    def _add(self, row: Row, entry: Entry, before: Optional[Row]) -> None:
        record = self._touch(row, entry.deferred)
        record.pairs += 1

    def _fire(self, row: Row, entry: Entry, before: Optional[Row]) -> None:
        record = self._fires(row, before, ArrowKind.FIRE)
        cancel = self._causes.firing_cancel(row)
        record.cancelled = cancel.place if cancel is not None else None
        record.begun = self._cancel_behind(row, record)
        if self._causes.taken_cancel(entry.deferred) is before and before is not None:
            self.world.leaves(entry.deferred)
        record.fired = record.origin = row.place
        record.fired_by = row.cause
        record.value = entry.outcome

    def _cancel_behind(self, row: Row, record: Record) -> Optional[int]:
        """The row of the cancel with which the failure began by which a Deferred is fired, if one did."""
        if row.entry.outcome is None or not row.entry.outcome.is_failure:
            return None
        if record.cancelled is not None:
            return record.cancelled
        firing = self.records.get(row.actor.number) if row.actor.by is By.SIDE else None
        return firing.begun if firing is not None else None

    def _refuse(self, row: Row, entry: Entry, before: Optional[Row]) -> None:
        self._fires(row, before, ArrowKind.REFUSE).refused.append(row.place)

    def _swallow(self, row: Row, entry: Entry, before: Optional[Row]) -> None:
        self._fires(row, before, ArrowKind.SWALLOW).swallowed.append(row.place)

    def _fires(self, row: Row, before: Optional[Row], kind: ArrowKind) -> Record:
        record = self._touch(row, row.entry.deferred)
        acting = self.said_by(row.actor)
        row.cause = self._causes.of(row, before, acting)
        row.is_plain = row.cause == acting
        self._arrow(row, kind, record.number)
        return record

    def _run(self, row: Row, entry: Entry, before: Optional[Row]) -> None:
        self._touch(row, entry.deferred).runs_since = row.place

    def _set(self, row: Row, entry: Entry, before: Optional[Row]) -> None:
        record = self._touch(row, entry.deferred)
        passed_on = (
            entry.outcome == record.value and entry.outcome is not None and entry.outcome.is_failure
        )
        record.origin = record.origin if passed_on else row.place
        record.value = entry.outcome
        record.taken = None
        if entry.outcome is None or not entry.outcome.is_failure:
            record.begun = None

    def _take(self, row: Row, entry: Entry, before: Optional[Row]) -> None:
        taker, giver = self._touch(row, entry.deferred), self._touch(row, entry.other)
        row.draw(ArrowKind.HAND, giver.number, taker.number)
        self._hand_over(row, taker, giver)

    def _wait(self, row: Row, entry: Entry, before: Optional[Row]) -> None:
        record = self._touch(row, entry.deferred)
        self._touch(row, entry.other)
        record.waits, record.waits_at = entry.other, row.place
        self._reached.clear()
        row.draw(ArrowKind.WAIT, entry.deferred, entry.other)

    def _hand(self, row: Row, entry: Entry, before: Optional[Row]) -> None:
        taker, giver = self._touch(row, entry.deferred), self._touch(row, entry.other)
        row.draw(ArrowKind.HAND, giver.number, taker.number)
        taker.waits = None
        self._hand_over(row, taker, giver)
        self._reached.clear()

    def _hand_over(self, row: Row, taker: Record, giver: Record) -> None:
        """The one gets the value of the other, which has null then."""
        outcome = row.entry.outcome
        if outcome == NULL and giver.taken is not None:
            self.got_null.append(GotNull(row.place, taker.number, giver.number, giver.taken))
        elif outcome != NULL:
            giver.taken = row.place
        taker.value, taker.origin, taker.begun = outcome, giver.origin, giver.begun
        giver.value, giver.begun = NULL, None

    def _pause(self, row: Row, entry: Entry, before: Optional[Row]) -> None:
        record = self._touch(row, entry.deferred)
        record.pauses += 1
        record.paused_at = row.place
        self._arrow(row, ArrowKind.PAUSE, record.number)

    def _unpause(self, row: Row, entry: Entry, before: Optional[Row]) -> None:
        record = self._touch(row, entry.deferred)
        record.pauses -= 1
        self._arrow(row, ArrowKind.PAUSE, entry.deferred)

    def _cancel(self, row: Row, entry: Entry, before: Optional[Row]) -> None:
        number = entry.deferred
        self._touch(row, number)
        self._arrow(row, ArrowKind.CANCEL, number)
        reached = self.end_of_waits(number)
        if reached is None:
            row.cause = ("the waits go round in a circle: nothing happens",)
            return
        record = self._touch(row, reached)
        if reached != number:
            row.draw(ArrowKind.CANCEL, number, reached)
            row.cause = ("reaches ", OfDeferred(reached))
        if record.fired is not None:
            row.cause = (OfDeferred(reached), " is fired already: nothing happens")
        else:
            self._causes.cancel_reaches(row, reached)

    def _await(self, row: Row, entry: Entry, before: Optional[Row]) -> None:
        record = self._touch(row, entry.deferred)
        self._touch(row, entry.other)
        record.awaits, record.awaits_at = entry.other, row.place
        if record.made is Made.ACTION:
            record.made = Made.INLINE
        row.draw(ArrowKind.WAIT, entry.deferred, entry.other)

    def _unhandled(self, row: Row, entry: Entry, before: Optional[Row]) -> None:
        self.unhandled.append(row)

    # locks and queues

    def _lock(self, row: Row, entry: Entry, before: Optional[Row]) -> None:
        self.world.locks.add(Lock(entry.name, row.place, max(1, entry.number)), entry)

    def _acquire(self, row: Row, entry: Entry, before: Optional[Row]) -> None:
        record, lock = self._touch(row, entry.deferred), self.world.locks.found(entry)
        record.made = Made.ACQUIRE
        if lock is None:
            return
        record.of = lock.number
        if lock.given < lock.tokens:
            lock.given += 1
            lock.give(entry.deferred, row.place)
            row.serves = entry.deferred
        else:
            self.world.joins(lock.line, entry.deferred)

    def _release(self, row: Row, entry: Entry, before: Optional[Row]) -> None:
        lock = self.world.lock_to_release(entry, self._fired_next(row))
        if lock is not None and lock.given:
            row.serves = lock.serve(row.place)
            if row.serves is not None:
                self.world.leaves(row.serves)

    def _fired_next(self, row: Row) -> Optional[int]:
        """The Deferred that the next line fires."""
        following = self._entries[row.place + 1] if row.place + 1 < len(self._entries) else None
        return following.deferred if following is not None and following.word in _FIRINGS else None

    def _queue(self, row: Row, entry: Entry, before: Optional[Row]) -> None:
        self.world.queues.add(Queue(entry.name, row.place), entry)

    def _put(self, row: Row, entry: Entry, before: Optional[Row]) -> None:
        queue = self.world.queues.found(entry)
        if queue is None:
            return
        row.serves = next(iter(queue.line), None)
        if row.serves is None:
            queue.stored.append(row.place)
        else:
            self.world.leaves(row.serves)

    def _get(self, row: Row, entry: Entry, before: Optional[Row]) -> None:
        record, queue = self._touch(row, entry.deferred), self.world.queues.found(entry)
        record.made = Made.GET
        if queue is None:
            return
        record.of = queue.number
        if queue.count:
            queue.taken += 1
            row.serves = entry.deferred
        else:
            self.world.joins(queue.line, entry.deferred)

    # the clock

    def _later(self, row: Row, entry: Entry, before: Optional[Row]) -> None:
        world = self.world
        if entry.what in ("tick", "tickin"):
            world.due_ticks[entry.name] = Tick(entry.name, row.place, entry.number)
        elif entry.what == "job":
            job = world.jobs.get(int(entry.name))
            if job is not None:
                job.due, job.later = entry.number, row.place
        elif entry.what == "loop":
            loop = world.loop_that(entry, Phase.TURNING)
            if loop is not None:
                loop.phase, loop.due, loop.later = Phase.SCHEDULED, entry.number, row.place
        elif entry.what == "timeout":
            self._touch(row, entry.deferred)
            timer = Call("", row.place, entry.number, entry.deferred)
            world.timers.append(timer)
            world.due.add(f"#{entry.deferred}", timer)
        else:
            world.due.add(entry.name, world.calls.add(Call(entry.name, row.place, entry.number), entry))

    def _uncall(self, row: Row, entry: Entry, before: Optional[Row]) -> None:
        call = self.world.calls.found(entry)
        if call is not None and call.state is Wait.WAITING:
            call.state = Wait.CANCELLED
            self._link(call.row, row, BracketKind.CANCELLED)

    def _reset(self, row: Row, entry: Entry, before: Optional[Row]) -> None:
        call = self.world.calls.found(entry)
        if call is not None and call.state is Wait.WAITING:
            row.cause = ("scheduled at ", OfLine(call.row), ", was due ", OfTime(call.due))
            call.due, call.reset = entry.number, row.place
            self.world.due.add(call.name, call)

    def _advance(self, row: Row, entry: Entry, before: Optional[Row]) -> None:
        self.world.now = entry.number

    def _call(self, row: Row, entry: Entry, before: Optional[Row]) -> None:
        self._comes(row, self.world.due.come(entry.name))

    def _timeout(self, row: Row, entry: Entry, before: Optional[Row]) -> None:
        self._touch(row, entry.deferred)
        self._comes(row, self.world.due.come(f"#{entry.deferred}"))

    def _comes(self, row: Row, call: Optional[Call]) -> None:
        if call is not None:
            call.state = Wait.CALLED
            self._link(call.row, row, BracketKind.CAME)
            cause: Phrase = ("scheduled at ", OfLine(call.row))
            if call.reset is not None:
                cause += (", reset at ", OfLine(call.reset))
            row.cause = (*cause, ", due ", OfTime(call.due))

    def _job(self, row: Row, entry: Entry, before: Optional[Row]) -> None:
        record = self._touch(row, entry.deferred)
        record.made, record.of = Made.JOB, entry.number
        self.world.jobs[entry.number] = Job(row.place, entry.deferred)

    def _deliver(self, row: Row, entry: Entry, before: Optional[Row]) -> None:
        job = self.world.jobs.get(entry.number)
        if job is not None:
            job.is_delivered = True
            self._link(job.later, row, BracketKind.CAME)
            row.serves = job.deferred
            row.cause = ("the job of ", OfDeferred(job.deferred))

    # loops and tasks

    def _loop(self, row: Row, entry: Entry, before: Optional[Row]) -> None:
        record = self._touch(row, entry.deferred)
        loop = self.world.loops.add(Loop(entry.name, row.place, entry.deferred), entry)
        record.made, record.of = Made.LOOP, loop.number

    def _turn(self, row: Row, entry: Entry, before: Optional[Row]) -> None:
        loop = self.world.loop_that(entry, Phase.SCHEDULED)
        if loop is not None:
            if loop.later is not None:
                self._link(loop.later, row, BracketKind.CAME)
            loop.phase, loop.later, loop.due, loop.turned = Phase.TURNING, None, None, row.place

    def _stop(self, row: Row, entry: Entry, before: Optional[Row]) -> None:
        loop = self.world.loops.found(entry)
        if loop is None:
            return
        if loop.phase is Phase.SCHEDULED:
            row.serves = loop.deferred
            if loop.later is not None:
                self._link(loop.later, row, BracketKind.CANCELLED)
        loop.phase = Phase.ENDED

    def _task(self, row: Row, entry: Entry, before: Optional[Row]) -> None:
        self.world.add_task(Task(entry.name, row.place, entry.second), entry)

    def _tick(self, row: Row, entry: Entry, before: Optional[Row]) -> None:
        tick = self.world.due_ticks.pop(entry.name, None)
        if tick is not None:
            self._link(tick.row, row, BracketKind.CAME)

    def _hold(self, row: Row, entry: Entry, before: Optional[Row]) -> None:
        self._touch(row, entry.deferred)
        task = self.world.task_of(entry)
        if task is not None:
            self.world.change_task(task, 1)
            task.held = entry.deferred, row.place

    def _pause_task(self, row: Row, entry: Entry, before: Optional[Row]) -> None:
        task = self.world.tasks.found(entry)
        if task is not None:
            self.world.change_task(task, 1)

    def _resume_task(self, row: Row, entry: Entry, before: Optional[Row]) -> None:
        task = self.world.task_of(entry)
        if task is not None:
            self.world.change_task(task, -1)
            if task.held is not None and any(
                side.deferred == task.held[0] for side in self.nesting.sides
            ):
                task.held = None

    def _end(self, row: Row, entry: Entry, before: Optional[Row]) -> None:
        task = self.world.task_of(entry)
        if task is not None:
            self.world.change_task(task, 0, ends=True)
            self._causes.task_ends(row, task.waiters)

    def _when_done(self, row: Row, entry: Entry, before: Optional[Row]) -> None:
        record, task = self._touch(row, entry.deferred), self.world.tasks.found(entry)
        record.made = Made.WHEN_DONE
        if task is None:
            return
        record.of = task.number
        if task.has_ended:
            row.serves = entry.deferred
        else:
            task.waiters.append(entry.deferred)


def _nothing(row: Row, entry: Entry, before: Optional[Row]) -> None:
    """Nothing changes."""
