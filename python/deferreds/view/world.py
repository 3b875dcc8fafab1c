"""The objects round the Deferreds, as the lines tell of them: locks, queues, calls, loops, tasks, jobs.

A journal names them, and a name may be bound more than once: which object is meant is then a guess, which `Shelf`
notes. Exact facts number the objects of each kind, in order of making, and nothing is guessed.
"""

from __future__ import annotations

import enum
import heapq
from collections import OrderedDict
from typing import Dict, Generic, List, Optional, Set, Tuple, TypeVar

from .lines import Entry

#: Deferreds that wait, in order; each can leave at once, however long the line is
Line = OrderedDict[int, None]


class Thing:
    """An object with a name."""

    def __init__(self, name: str, row: int) -> None:
        self.name = name
        #: the row in which it was made
        self.row = row
        #: its place among those of its kind
        self.number = -1


T = TypeVar("T", bound=Thing)

#: what the moves of a lock have in the place of a Deferred if a token is released
RELEASED = -1

#: among how many objects of one name the one is looked for that a line means
_MOST_CANDIDATES = 50


class Shelf(Generic[T]):
    """The objects of a kind, by name and by number."""

    def __init__(self) -> None:
        self.all: List[T] = []
        self._named: Dict[str, List[T]] = {}
        #: the names that were bound more than once, and those of them by which it was guessed which object a line means
        self.ambiguous: Set[str] = set()
        self.guessed: Set[str] = set()

    def add(self, thing: T, entry: Entry) -> T:
        """Puts a new object up."""
        thing.number = len(self.all)
        self.all.append(thing)
        same = self._named.setdefault(thing.name, [])
        if same:
            self.ambiguous.add(thing.name)
        same.append(thing)
        return thing

    def found(self, entry: Entry) -> Optional[T]:
        """The object that the line means: the last of that name, where the line has no number."""
        if 0 <= entry.object < len(self.all):
            return self.all[entry.object]
        same = self._named.get(entry.name)
        return same[-1] if same else None

    def at(self, number: int) -> Optional[T]:
        """The object of this number."""
        return self.all[number] if 0 <= number < len(self.all) else None

    def candidates(self, entry: Entry) -> List[T]:
        """The objects that the line may mean, where its name doesn't tell: the last ones of that name, the latest first."""
        if entry.object >= 0 or entry.name not in self.ambiguous:
            return []
        self.guessed.add(entry.name)
        return self._named[entry.name][: -_MOST_CANDIDATES - 1 : -1]


class Lock(Thing):
    """A lock or a semaphore."""

    def __init__(self, name: str, row: int, tokens: int) -> None:
        super().__init__(name, row)
        self.tokens = tokens
        self.given = 0
        #: who waits for a token, in order
        self.line: Line = OrderedDict()
        #: what became of its tokens: the Deferred that got one, or RELEASED, and the row
        self.moves: List[Tuple[int, int]] = []

    def give(self, deferred: int, row: int) -> None:
        """A token is given to this Deferred."""
        self.moves.append((deferred, row))

    def serve(self, row: int) -> Optional[int]:
        """A token is released: it goes to the first waiter, which is returned, or to none."""
        self.moves.append((RELEASED, row))
        first = next(iter(self.line), None)
        if first is None:
            self.given -= 1
            return None
        del self.line[first]
        self.give(first, row)
        return first


class Queue(Thing):
    """A queue."""

    def __init__(self, name: str, row: int) -> None:
        super().__init__(name, row)
        #: who waits for a value, in order
        self.line: Line = OrderedDict()
        #: the rows in which the values were put that are stored
        self.stored: List[int] = []
        self.taken = 0

    @property
    def count(self) -> int:
        """How many values are stored."""
        return len(self.stored) - self.taken


class Wait(enum.Enum):
    """What has become of a delayed call or a timer."""

    WAITING = "waiting"
    CALLED = "called"
    CANCELLED = "cancelled"


class Call(Thing):
    """A delayed call, or the timer of a Deferred."""

    def __init__(self, name: str, row: int, due: int, deferred: Optional[int] = None) -> None:
        super().__init__(name, row)
        self.due = due
        #: the row in which it was reset last, if it was
        self.reset: Optional[int] = None
        #: of a timer, its Deferred
        self.deferred = deferred
        self.state = Wait.WAITING


class Phase(enum.Enum):
    """What a loop does."""

    SCHEDULED = "a turn is scheduled"
    TURNING = "a turn isn't over"
    ENDED = "it has ended"


class Loop(Thing):
    """A loop, with its Deferred."""

    def __init__(self, name: str, row: int, deferred: int) -> None:
        super().__init__(name, row)
        self.deferred = deferred
        self.phase = Phase.SCHEDULED
        #: when its next turn is due, and the row in which that was scheduled; None for a first turn at once
        self.due: Optional[int] = None
        self.later: Optional[int] = None
        #: the row of its last turn
        self.turned = row


class Task(Thing):
    """A task of a Cooperator: the script's own has no name."""

    def __init__(self, name: str, row: int, cooperator: str = "") -> None:
        super().__init__(name, row)
        self.cooperator = cooperator
        self.pauses = 0
        #: the Deferred that holds it, and since which row
        self.held: Optional[Tuple[int, int]] = None
        self.has_ended = False
        #: who waits for its end
        self.waiters: List[int] = []

    @property
    def takes_turns(self) -> bool:
        """Whether it stands in the list."""
        return not self.has_ended and self.pauses <= 0


class Tick(Thing):
    """A tick of a Cooperator that is scheduled."""

    def __init__(self, cooperator: str, row: int, due: int) -> None:
        super().__init__(cooperator, row)
        self.due = due


class Job(Thing):
    """A job, by its number, with the Deferred that its result is for."""

    def __init__(self, row: int, deferred: int) -> None:
        super().__init__("", row)
        self.deferred = deferred
        #: when it is delivered, and the row in which that was scheduled; None where the run stopped before that
        self.due: Optional[int] = None
        self.later = row
        self.is_delivered = False

    @property
    def is_left(self) -> bool:
        """Whether its result is still to be delivered."""
        return self.due is not None and not self.is_delivered


class Due:
    """The calls and timers that wait, those that are due first at the front."""

    def __init__(self) -> None:
        self._waiting: Dict[str, List[Tuple[int, int, Call]]] = {}

    def add(self, key: str, call: Call) -> None:
        """One more waits, or one that waits is due at another time than before."""
        heapq.heappush(self._waiting.setdefault(key, []), (call.due, call.row, call))

    def come(self, key: str) -> Optional[Call]:
        """The one that comes now, if any waits."""
        waiting = self._waiting.get(key, [])
        while waiting:
            due, _, call = heapq.heappop(waiting)
            if call.state is Wait.WAITING and call.due == due:
                return call
        return None


class World:
    """All objects, and the clock."""

    def __init__(self) -> None:
        self.locks: Shelf[Lock] = Shelf()
        self.queues: Shelf[Queue] = Shelf()
        self.calls: Shelf[Call] = Shelf()
        self.timers: List[Call] = []
        self.loops: Shelf[Loop] = Shelf()
        self.tasks: Shelf[Task] = Shelf()
        self.jobs: Dict[int, Job] = {}
        self.due = Due()
        #: by the name of a Cooperator, its tick, and how many of its tasks take turns
        self.due_ticks: Dict[str, Tick] = {}
        self.now = 0
        self._active: Dict[str, int] = {}
        #: where a Deferred waits in a line, that line
        self.lines: Dict[int, Line] = {}

    def joins(self, line: Line, deferred: int) -> None:
        """The Deferred waits in this line."""
        line[deferred] = None
        self.lines[deferred] = line

    def leaves(self, deferred: int) -> None:
        """It waits in no line any more."""
        line = self.lines.pop(deferred, None)
        if line is not None:
            line.pop(deferred, None)

    def lock_to_release(self, entry: Entry, fired: Optional[int]) -> Optional[Lock]:
        """The lock that a line gives a token back to, where the next line fires this Deferred, or none.

        A name may be bound anew while a body still has a token of the lock that had it.
        """
        same = [lock for lock in self.locks.candidates(entry) if lock.given]
        fitting = (lock for lock in same if next(iter(lock.line), fired) == fired)
        return next(fitting, same[0] if same else self.locks.found(entry))

    def task_of(self, entry: Entry) -> Optional[Task]:
        """The task that a line means: one that hasn't ended, where the name is bound more than once."""
        fitting = (task for task in self.tasks.candidates(entry) if not task.has_ended)
        return next(fitting, self.tasks.found(entry))

    def loop_that(self, entry: Entry, phase: Phase) -> Optional[Loop]:
        """The loop that a line means, in this phase: the one that is due first, where several of the name are."""
        fitting = [loop for loop in self.loops.candidates(entry) if loop.phase is phase]
        first = min(
            fitting,
            key=lambda loop: (loop.due is not None, loop.due or 0, loop.later or 0),
            default=None,
        )
        return first or self.loops.found(entry)

    def change_task(self, task: Task, pauses: int, ends: bool = False) -> None:
        """Pauses a task more or less, or ends it; where none takes turns any more the tick that is scheduled is dropped."""
        took = task.takes_turns
        task.pauses += pauses
        task.has_ended = task.has_ended or ends
        self._active[task.cooperator] = self._active.get(task.cooperator, 0) + task.takes_turns - took
        if not self._active[task.cooperator]:
            self.due_ticks.pop(task.cooperator, None)

    def add_task(self, task: Task, entry: Entry) -> None:
        """A task joins the list of its Cooperator."""
        self.tasks.add(task, entry)
        self._active[task.cooperator] = self._active.get(task.cooperator, 0) + 1
