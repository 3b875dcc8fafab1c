"""What is left at the end of a run: what hasn't come, what nobody trapped, what was never given back.

`./deferreds --json` tells it exactly (docs/JSON.md, `left`); `left_of` finds of it what the lines of a journal
tell.
"""

from __future__ import annotations

import enum
from typing import Iterator, List, NamedTuple, Optional, Tuple, Union

from .fold import Fold
from .records import Ended, Made, Record, ended
from .world import Phase, Wait


class At(enum.Enum):
    """At what a Deferred hangs."""

    DEFERRED = "deferred"
    AWAIT = "await"
    LOCK = "lock"
    QUEUE = "queue"
    JOB = "job"
    LOOP = "loop"
    TASK = "task"
    CHILD = "child"
    CHAIN = "chain"
    TIMEOUT = "timeout"


class Hang(NamedTuple):
    """At what a Deferred hangs: the number of a Deferred, or of an object of the kind, or when a timer is due."""

    at: At
    number: int


class LeftDeferred(NamedTuple):
    """A Deferred that is unfired, waits or is paused, or whose side still runs."""

    number: int
    state: str
    pauses: int
    running: bool
    hangs: Tuple[Hang, ...]


class LeftFailure(NamedTuple):
    """A Deferred whose outcome is a failure."""

    number: int


class LeftCall(NamedTuple):
    """A delayed call that hasn't come."""

    number: int
    due: int


class LeftTick(NamedTuple):
    """A tick that hasn't come, of the Cooperator of this name; the script's own has none."""

    due: int
    cooperator: str = ""


class LeftDelivery(NamedTuple):
    """A job's result that hasn't been delivered."""

    job: int
    deferred: int
    due: int


class LeftTimeout(NamedTuple):
    """A timer whose time hasn't come."""

    deferred: int
    due: int


class LeftLoop(NamedTuple):
    """A loop that goes on, with when its next turn is due, and the Deferreds that its turn waits for."""

    number: int
    deferred: int
    due: Optional[int]
    waits_for: Tuple[int, ...]


class LeftTask(NamedTuple):
    """A task that hasn't ended, with the Deferreds that hold it."""

    number: int
    pauses: int
    waits_for: Tuple[int, ...]


class LeftTokens(NamedTuple):
    """A lock or semaphore of which tokens are given, with who waits for one."""

    number: int
    given: int
    tokens: int
    waiting: Tuple[int, ...]


class LeftGetters(NamedTuple):
    """A queue on which Deferreds wait for a value."""

    number: int
    waiting: Tuple[int, ...]


class LeftValues(NamedTuple):
    """A queue with values that nobody got."""

    number: int
    values: int


class LeftUnhandled(NamedTuple):
    """A failure that was told as `unhandled`, by its row."""

    row: int


Left = Union[
    LeftDeferred,
    LeftFailure,
    LeftCall,
    LeftTick,
    LeftDelivery,
    LeftTimeout,
    LeftLoop,
    LeftTask,
    LeftTokens,
    LeftGetters,
    LeftValues,
    LeftUnhandled,
]


def left_of(fold: Fold) -> List[Left]:
    """What is left, as far as the lines tell it. They don't tell the children of a list, who is chained to whom, how many bodies a
    task has left, for whom a loop's turn waits, and the end of a timer whose Deferred came in time."""
    return [
        *_deferreds(fold),
        *_scheduled(fold),
        *_loops(fold),
        *_tasks(fold),
        *_tokens(fold),
        *_queues(fold),
        *(LeftUnhandled(row.place) for row in fold.unhandled),
    ]


def _deferreds(fold: Fold) -> Iterator[Left]:
    for record in fold.records.values():
        if record.is_stuck:
            state = (
                "waiting" if record.waits is not None else "unfired" if record.fired is None else "fired"
            )
            running = record.runs_since is not None
            yield LeftDeferred(record.number, state, record.pauses, running, tuple(_hangs(fold, record)))
        if ended(record.end.removeprefix("paused ")) is Ended.FAIL:
            yield LeftFailure(record.number)


def _hangs(fold: Fold, record: Record) -> Iterator[Hang]:
    if record.waits is not None:
        yield Hang(At.DEFERRED, record.waits)
    if record.fired is not None:
        return
    if record.awaits is not None and _is_stuck(fold, record.awaits) and _has_pair(fold, record):
        yield Hang(At.AWAIT, record.awaits)
    elif record.made in (Made.ACQUIRE, Made.GET) and record.number in fold.world.lines:
        yield Hang(At.LOCK if record.made is Made.ACQUIRE else At.QUEUE, record.of)
    elif record.made is Made.JOB and fold.world.jobs[record.of].is_left:
        yield Hang(At.JOB, record.of)
    for timer in fold.world.timers:
        if timer.deferred == record.number and timer.state is Wait.WAITING:
            yield Hang(At.TIMEOUT, timer.due)
    if record.made is Made.LOOP:
        yield Hang(At.LOOP, record.of)
    task = fold.world.tasks.at(record.of) if record.made is Made.WHEN_DONE else None
    if task is not None and not task.has_ended:
        yield Hang(At.TASK, record.of)


def _has_pair(fold: Fold, record: Record) -> bool:
    """Whether an inline body has added its pair to whom it awaits: the run may have stopped between the two lines."""
    return record.awaits_at is not None and record.awaits_at + 1 < len(fold.rows)


def _is_stuck(fold: Fold, number: int) -> bool:
    record = fold.records.get(number)
    return record is not None and record.is_stuck


def _scheduled(fold: Fold) -> Iterator[Left]:
    """Calls, timers, ticks and deliveries, in the order in which they were scheduled."""
    world = fold.world
    found: List[Tuple[int, Left]] = [
        (call.row, LeftCall(call.number, call.due))
        for call in world.calls.all
        if call.state is Wait.WAITING
    ]
    for timer in world.timers:
        record = fold.records[timer.deferred] if timer.deferred is not None else None
        if timer.state is Wait.WAITING and record is not None and record.fired is None:
            found.append((timer.row, LeftTimeout(record.number, timer.due)))
    for tick in world.due_ticks.values():
        found.append((tick.row, LeftTick(tick.due, tick.name)))
    for number, job in world.jobs.items():
        if job.due is not None and not job.is_delivered:
            found.append((job.later, LeftDelivery(number, job.deferred, job.due)))
    return (left for _, left in sorted(found, key=lambda pair: pair[0]))


def _loops(fold: Fold) -> Iterator[Left]:
    """A loop that turns, and whose Deferred somebody has fired, can't be told from one that has ended."""
    for loop in fold.world.loops.all:
        turns = loop.phase is Phase.TURNING and fold.records[loop.deferred].fired is None
        if turns or (loop.phase is Phase.SCHEDULED and loop.due is not None):
            yield LeftLoop(loop.number, loop.deferred, loop.due, ())


def _tasks(fold: Fold) -> Iterator[Left]:
    for task in fold.world.tasks.all:
        if not task.has_ended:
            held = (task.held[0],) if task.held is not None and task.pauses > 0 else ()
            yield LeftTask(task.number, task.pauses, held)


def _tokens(fold: Fold) -> Iterator[Left]:
    for lock in fold.world.locks.all:
        if lock.given:
            yield LeftTokens(lock.number, lock.given, lock.tokens, tuple(lock.line))


def _queues(fold: Fold) -> Iterator[Left]:
    for queue in fold.world.queues.all:
        if queue.line:
            yield LeftGetters(queue.number, tuple(queue.line))
        if queue.count:
            yield LeftValues(queue.number, queue.count)
