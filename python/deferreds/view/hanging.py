"""What all that is left depends on: the report has a row for each cause, and none for what depends on another."""

from __future__ import annotations

from typing import Any, Dict, List, NamedTuple, Optional, Sequence, Tuple, Union

from .fold import Fold
from .left import At, Hang, Left, LeftDeferred, LeftLoop, LeftTask
from .phrases import OfDeferred, OfLine, Phrase, listed, words
from .sizes import several
from .world import Shelf


class Circle(NamedTuple):
    """Deferreds each of which waits for the next, and the last for the first; the least stands first."""

    ring: Tuple[int, ...]


class Root(NamedTuple):
    """What all else hangs on: a Deferred, or an object of the kind."""

    at: At
    number: int


End = Union[Circle, Root]

_ORDER = list(At)


def _rank(hang: Hang) -> int:
    return _ORDER.index(hang.at)


class Hanging:
    """What hangs on what."""

    def __init__(self, fold: Fold, left: Sequence[Left]) -> None:
        self._fold = fold
        self._stuck = {one.number: one for one in left if isinstance(one, LeftDeferred)}
        self._loops = {one.number: one for one in left if isinstance(one, LeftLoop)}
        self._tasks = {one.number: one for one in left if isinstance(one, LeftTask)}
        self._ends: Dict[int, End] = {}
        #: whatever something hangs on, with the Deferreds that hang on it
        self.on: Dict[End, List[int]] = {}
        for number in self._stuck:
            self.on.setdefault(self._end(number), []).append(number)

    def _first(self, number: int) -> Optional[Hang]:
        """At what the Deferred hangs before anything else. A timer only ends the waiting, so it isn't what it waits for."""
        left = self._stuck[number]
        if left.running:
            return None
        hangs = [hang for hang in left.hangs if hang.at is not At.TIMEOUT]
        return min(hangs, key=_rank) if hangs else None

    def _next(self, number: int) -> Union[int, Root]:
        """The Deferred on which this one hangs, or where that ends."""
        hang = self._first(number)
        if hang is None:
            return Root(At.DEFERRED, number)
        if hang.at is At.LOOP or hang.at is At.TASK:
            holder = self._holder(hang)
            return Root(*hang) if holder is None else holder
        if hang.at in (At.LOCK, At.QUEUE, At.JOB):
            return Root(*hang)
        return hang.number if hang.number in self._stuck else Root(At.DEFERRED, number)

    def _holder(self, hang: Hang) -> Optional[int]:
        """The Deferred for which a loop's turn or a task waits."""
        one = self._loops.get(hang.number) if hang.at is At.LOOP else self._tasks.get(hang.number)
        return (
            next((number for number in one.waits_for if number in self._stuck), None)
            if one is not None
            else None
        )

    def _end(self, number: int) -> End:
        """What the Deferred hangs on in the end, with all between them in one walk."""
        path: List[int] = []
        places: Dict[int, int] = {}
        at: Union[int, Root] = number
        end: Optional[End] = None
        while end is None:
            if isinstance(at, Root):
                end = at
            elif at in self._ends:
                end = self._ends[at]
            elif at in places:
                ring = path[places[at] :]
                least = ring.index(min(ring))
                end = Circle(tuple(ring[least:] + ring[:least]))
            else:
                places[at] = len(path)
                path.append(at)
                at = self._next(at)
        for passed in path:
            self._ends[passed] = end
        return end

    def reason(self, number: int) -> Phrase:
        """Why the Deferred has no value that its pairs may use."""
        me, hang, record = OfDeferred(number), self._first(number), self._fold.records.get(number)
        if hang is None or record is None:
            return (me, " isn't fired")
        if hang.at is At.DEFERRED:
            return (me, " waits for ", OfDeferred(hang.number), *_since(record.waits_at))
        if hang.at is At.AWAIT:
            return (
                "the inline body of ",
                me,
                " awaits ",
                OfDeferred(hang.number),
                *_since(record.awaits_at),
            )
        if hang.at is At.CHAIN:
            return (me, " is chained to ", OfDeferred(hang.number))
        if hang.at is At.CHILD:
            return self._of_children(number)
        return self._of_object(number, hang)

    def _of_children(self, number: int) -> Phrase:
        missing = list(
            dict.fromkeys(hang.number for hang in self._stuck[number].hangs if hang.at is At.CHILD)
        )
        count = several(len(missing), "Deferred that hasn't come", "Deferreds that haven't come")
        return (
            OfDeferred(number),
            f" is a list with {count}: ",
            *listed([OfDeferred(one) for one in missing], 4),
        )

    def _of_object(self, number: int, hang: Hang) -> Phrase:
        me, world = OfDeferred(number), self._fold.world
        if hang.at is At.LOCK:
            lock = world.locks.at(hang.number)
            return (me, f" waits for a token of {lock.name if lock else ''}")
        if hang.at is At.QUEUE:
            queue = world.queues.at(hang.number)
            return (me, f" waits for a value of {queue.name if queue else ''}")
        if hang.at is At.JOB:
            return (me, f" gets the result of job {hang.number}")
        holder = self._holder(hang)
        if hang.at is At.LOOP:
            loop = world.loops.at(hang.number)
            waits = (
                words(", whose turn waits for ", OfDeferred(holder)) if holder is not None else words()
            )
            return (me, f" is fired when loop {loop.name if loop else ''} ends", *waits)
        task = world.tasks.at(hang.number)
        waits = words(", which is held by ", OfDeferred(holder)) if holder is not None else words()
        return (me, f" is fired when task {task.name if task else ''} ends", *waits)


def object_name(fold: Fold, hang: Hang) -> str:
    """The name of the object on which something hangs; of a job its number, of a timer when it is due."""
    world = fold.world
    shelves: Dict[At, Shelf[Any]] = {At.LOCK: world.locks, At.QUEUE: world.queues, At.LOOP: world.loops, At.TASK: world.tasks}
    if hang.at not in shelves:
        return str(hang.number)
    thing = shelves[hang.at].at(hang.number)
    name: str = thing.name if thing is not None else ""
    return name


def _since(row: Optional[int]) -> Phrase:
    return words(" since ", OfLine(row)) if row is not None else words()
