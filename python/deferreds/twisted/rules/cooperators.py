"""What `deferreds` does with a Cooperator and its tasks where Twisted does otherwise: a class for each entry.

Each of these classes stands before Twisted's own, and takes the place of as few of its methods as the entry needs.
"""

from __future__ import annotations

from typing import AbstractSet, Any, Dict, Iterator, List, Type, cast

from twisted.internet import task
from twisted.internet.defer import AlreadyCalledError, Deferred

from ..profile import TURN_ENTRIES, Entry
from ..telling import watched


class FairTurns(task.Cooperator):
    """`skipped-turn`: when a task leaves the list, the one that was next still is. If none is next then, the first one is."""

    #: the place in the list of the task whose turn is next
    _place = 0

    def _removeTask(self, task: Any) -> None:
        is_before = task in self._tasks[: self._place]
        super()._removeTask(task)
        self._place -= is_before
        if self._place >= len(self._tasks):
            self._end_round()

    def _end_round(self) -> None:
        self._place = 0

    def _tasksWhileNotStopped(self) -> Iterator[Any]:
        is_over = self._terminationPredicateFactory()
        while self._tasks:
            if self._place >= len(self._tasks):
                self._place = 0
            self._place += 1
            yield self._tasks[self._place - 1]
            if is_over():
                return


class JoinsNext(FairTurns):
    """`join-after-the-last`: if none is next when a task has left the list, the next one that joins is."""

    def _end_round(self) -> None:
        pass


class TicksAfterTicks(task.Cooperator):
    """`tick-scheduled-in-a-tick`: the next tick is scheduled when this one has ended."""

    _in_tick = False

    def _tasksWhileNotStopped(self) -> Iterator[Any]:
        self._in_tick = True
        try:
            yield from super()._tasksWhileNotStopped()
        finally:
            self._in_tick = False

    def _reschedule(self) -> None:
        if not self._in_tick:
            super()._reschedule()


class _FromTheFirst(List[Any]):
    """The tasks of a Cooperator that is stopped: each that ends leaves the list, and then the first one is next."""

    def __iter__(self) -> Iterator[Any]:
        while self:
            yield self[0]


class StopsEach(task.Cooperator):
    """`task-left-by-stop`: each task that takes turns ends, in order of joining."""

    def stop(self) -> None:
        """Ends the tasks that take turns."""
        walked = self._tasks
        self._tasks = _FromTheFirst(walked[:])
        try:
            super().stop()
        finally:
            walked[:] = self._tasks[:]
            self._tasks = walked


class _Logging:
    """A Deferred of `whenDone`. Where it refuses to be fired, that is logged."""

    def __init__(self, deferred: Deferred[Any]) -> None:
        self._deferred = deferred

    def callback(self, result: object) -> None:
        """Fires it."""
        try:
            self._deferred.callback(result)
        except AlreadyCalledError as error:
            watcher = watched.observer
            assert watcher is not None
            watcher.tell("unhandled ", watcher.texts.failure(error))


class LogsRefusals(task.CooperativeTask):
    """`refused-when-done`: a Deferred of `whenDone` that was fired already is logged, and the next one follows."""

    def whenDone(self) -> Deferred[Any]:
        """Gives a Deferred that fires when the task has ended."""
        waiting = len(self._deferreds)
        deferred: Deferred[Any] = super().whenDone()
        self._deferreds[waiting:] = [cast("Deferred[Any]", _Logging(one)) for one in self._deferreds[waiting:]]
        return deferred


class _Results:
    """The iterator of a task, whose results are dropped from the end of the task on."""

    def __init__(self, iterator: Any, ending: task.CooperativeTask) -> None:
        self._iterator = iterator
        self._ending = ending

    def __iter__(self) -> "_Results":
        return self

    def __next__(self) -> object:
        result: object = next(self._iterator)
        return result if self._ending._completionState is None else None


class EndsOnce(task.CooperativeTask):
    """`task-ended-twice`: results that come after a task's end are dropped."""

    def __init__(self, iterator: Any, cooperator: task.Cooperator) -> None:
        super().__init__(_Results(iterator, self), cooperator)

    def _completeWith(self, completionState: Any, deferredResult: Any) -> None:
        if self._completionState is None:
            super()._completeWith(completionState, deferredResult)


class StaysEnded(task.CooperativeTask):
    """`hold-on-an-ended-task`: what held a task that has ended doesn't resume it."""

    def resume(self) -> None:
        """Removes a pause."""
        watcher = watched.observer
        if self._completionState is None or watcher is None or not watcher.quiet:
            super().resume()


_OF_COOPERATORS: Dict[Entry, Type[task.Cooperator]] = {
    Entry.TICK_SCHEDULED_IN_A_TICK: TicksAfterTicks,
    Entry.JOIN_AFTER_THE_LAST: JoinsNext,
    Entry.SKIPPED_TURN: FairTurns,
    Entry.TASK_LEFT_BY_STOP: StopsEach,
}
_OF_TASKS: Dict[Entry, Type[task.CooperativeTask]] = {
    Entry.REFUSED_WHEN_DONE: LogsRefusals,
    Entry.TASK_ENDED_TWICE: EndsOnce,
    Entry.HOLD_ON_AN_ENDED_TASK: StaysEnded,
}

#: the entries whose rules are here
ENTRIES = frozenset((*_OF_COOPERATORS, *_OF_TASKS))


def cooperator_class(entries: AbstractSet[Entry], of_turns: AbstractSet[Entry]) -> Type[task.Cooperator]:
    """A Cooperator that does what `deferreds` does at these entries, and all else as Twisted's.

    `of_turns`: the entries of how tasks take turns that it can reach.
    """
    entries = entries - (TURN_ENTRIES - of_turns)
    of_task = tuple(rule for entry, rule in _OF_TASKS.items() if entry in entries)
    of_cooperator = tuple(rule for entry, rule in _OF_COOPERATORS.items() if entry in entries)
    made = type("Task", (*of_task, task.CooperativeTask), {})

    def cooperate(self: task.Cooperator, iterator: Any) -> Any:
        return made(iterator, self)

    return type("Cooperator", (*of_cooperator, task.Cooperator), {"cooperate": cooperate})
