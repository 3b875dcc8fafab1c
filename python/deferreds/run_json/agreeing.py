"""Whether the lines of a journal, folded, agree with what `--json` says of the same run: the check of the one against the other.

Compared are which side each line lies in, what became of each Deferred, by which line it was fired, and what is left, in
its order, with the names of Deferreds and objects and the values of queues. Left out of this is what lines don't say:
children of lists, who is chained to whom, for whom a loop's turn waits, how many bodies a task has left; a timer whose
Deferred was fired and hasn't used all of its pairs; a loop whose turn isn't over, where other code has fired its Deferred,
or the run has stopped; what the last line of a run that has stopped was to change; an await of a Deferred whose side runs
at the end, or whose pairs were being used when the run stopped. Where a line names one of several objects of a name, the fold takes its number from the facts, and where they
don't say it either, only the Deferreds are compared.
"""

from __future__ import annotations

import json
from typing import Any, Callable, Dict, FrozenSet, Iterator, List, NamedTuple, Optional, Sequence

from ..view.facts import Facts
from ..view.fold import Fold
from ..view.left import (
    At,
    Hang,
    Left,
    LeftDeferred,
    LeftGetters,
    LeftLoop,
    LeftTask,
    LeftTimeout,
    LeftTokens,
    left_of,
)
from ..view.lines import Entry, read_line
from ..view.nesting import LAST_POSTS
from ..view.sections import places_of
from ..view.world import Thing, World

#: a line of `--json`, or a part of one, in the words of docs/JSON.md
Told = Dict[str, Any]

_UNTOLD = frozenset({At.CHILD, At.CHAIN})
_OF_OBJECTS = frozenset({At.LOCK, At.QUEUE, At.LOOP, At.TASK})

#: what isn't known of who hangs where, if a run has stopped after a line of this word: whether that was taken out of its line or
#: fired, or whether the pair of an inline body that awaits was to run next
_UNTOLD_AFTER: Dict[str, FrozenSet[At]] = {
    "add": frozenset({At.AWAIT}),
    "cancel": frozenset({At.LOCK, At.QUEUE}),
    "stop": frozenset({At.LOOP}),
}

_DEFERRED, _OBJECT = {"name", "number"}, {"kind", "name", "number"}


class Agreement(NamedTuple):
    """What differs, and whether all was compared."""

    differences: List[str]
    is_whole: bool


def agreement(facts: Facts, told: Sequence[Told] = ()) -> Agreement:
    """Compares the fold of a run's lines with the facts of the run; and with the lines of JSON that have these, where they are
    given, in their names and values."""
    lines = [read_line(entry.row, entry.line) for entry in facts.entries]
    fold = Fold(lines, facts.ends)
    if _guesses(fold.world):
        fold = Fold(facts.entries, facts.ends)
    is_whole = not _guesses(fold.world)
    stopped = facts.ending is None or facts.ending.stopped
    found = [
        *(f"outcome: {problem}" for problem in fold.problems),
        *_firings(fold, facts),
        *_sides(fold, lines, facts),
        *_places(lines, facts),
        *_left(fold, facts, is_whole, stopped),
        *_names(fold, told),
    ]
    if is_whole:
        found += _values(fold, told)
    return Agreement(found, is_whole)


def _guesses(world: World) -> bool:
    """Whether it was guessed which object a line means."""
    return bool(world.locks.guessed or world.loops.guessed or world.tasks.guessed)


def _firings(fold: Fold, facts: Facts) -> Iterator[str]:
    """By which line each Deferred was fired."""
    for end, fired in zip(facts.ends, facts.fired):
        record = fold.records.get(end.number)
        if record is None or record.fired != fired:
            yield f"#{end.number} was fired by {fired}, and not so by the fold"


def _sides(fold: Fold, lines: List[Entry], facts: Facts) -> Iterator[str]:
    """In which side each line lies: the first `run` of those in which it lies by the facts."""
    inside: Dict[Optional[int], Optional[int]] = {None: None}
    for row, place in zip(fold.rows, facts.places):
        above = place.under
        inside[row.place] = above if above is None or lines[above].word == "run" else inside[above]
        if row.inside != inside[row.place]:
            yield f"line {row.place + 1} lies in {inside[row.place]}, and by the fold in {row.inside}"


def _places(lines: List[Entry], facts: Facts) -> Iterator[str]:
    """Where each line lies, by the facts and by the lines at which the events begin."""
    begins: List[int] = []
    for row, place in enumerate(facts.places):
        last = place.event == LAST_POSTS
        if last or place.event >= len(begins):
            begins += [row] * (1 if last else place.event + 1 - len(begins))
        if last:
            break
    for told, found in zip(facts.places, places_of(lines, begins)):
        if (told.under, told.depth) != (found.under, found.depth):
            yield f"a line lies in {told.under}, and by where events begin in {found.under}"


# what is left


def _left(fold: Fold, facts: Facts, is_whole: bool, stopped: bool) -> Iterator[str]:
    """What is left, by the facts and by the fold."""
    last = fold.rows[-1].entry.word if stopped and fold.rows else ""
    told = list(_comparable(fold, facts.left, is_whole, stopped, last))
    folded = list(_comparable(fold, left_of(fold), is_whole, stopped, last))
    differ = [f"only the facts: {one}" for one in told if one not in folded]
    differ += [f"only the fold: {one}" for one in folded if one not in told]
    if not differ and told != folded:
        differ = [f"what is left comes in the order {told}, and by the fold in {folded}"]
    yield from differ


def _runs(fold: Fold, hang: Hang, stopped: bool) -> bool:
    """Whether the pair by which an inline body awaits may be the one whose side runs at the end, or one that was to run when the run
    stopped: lines don't say which pairs of a fired Deferred have been used."""
    if hang.at is not At.AWAIT:
        return False
    record = fold.records[hang.number]
    return record.runs_since is not None or (stopped and not record.is_stuck)


def _untold(is_whole: bool, last: str) -> FrozenSet[At]:
    """At what a Deferred may hang that lines don't say."""
    untold = _UNTOLD | _UNTOLD_AFTER.get(last, frozenset())
    return untold if is_whole else untold | _OF_OBJECTS


def _comparable(
    fold: Fold, left: Sequence[Left], is_whole: bool, stopped: bool, last: str
) -> Iterator[Left]:
    """What the lines can say of what is left; in a run that has stopped at its limit the last line is of the word `last`."""
    for one in left:
        if isinstance(one, LeftDeferred):
            untold = _untold(is_whole, last)
            known = (hang for hang in one.hangs if hang.at not in untold and not _runs(fold, hang, stopped))
            yield one._replace(hangs=tuple(known))
        elif isinstance(one, LeftTimeout):
            if fold.records[one.deferred].fired is None:
                yield one
        elif not is_whole:
            continue
        elif isinstance(one, LeftLoop):
            if one.due is not None or not (stopped or fold.records[one.deferred].fired is not None):
                yield one._replace(waits_for=())
        elif isinstance(one, LeftTask):
            yield one._replace(waits_for=())
        elif last == "cancel" and isinstance(one, LeftTokens):
            yield one._replace(waiting=())
        elif last != "cancel" or not isinstance(one, LeftGetters):
            yield one


# names and values


def _names(fold: Fold, told: Sequence[Told]) -> Iterator[str]:
    """Each Deferred and each object of the lines has the name with which it was made."""
    for line in told:
        for part in _parts(line):
            if part.keys() == _DEFERRED or part.get("type") == "deferred":
                name = _name_of_deferred(fold, part["number"])
            elif part.keys() == _OBJECT and part["number"] is not None:
                name = _name_of_object(fold.world, part["kind"], part["number"])
            else:
                continue
            if part["name"] != name:
                yield f"the name of {part} is {name!r} by the fold"


def _parts(value: object) -> Iterator[Told]:
    """Each object of JSON that this is, or that stands in it."""
    todo = [value]
    while todo:
        part = todo.pop()
        if isinstance(part, dict):
            yield part
            todo.extend(part.values())
        elif isinstance(part, list):
            todo.extend(part)


def _name_of_deferred(fold: Fold, number: int) -> Optional[str]:
    record = fold.records.get(number)
    if record is None:
        return "of none"
    name = fold.rows[record.row].entry.name
    return None if name == "-" else name


_OBJECTS: Dict[str, Callable[[World, int], Optional[Thing]]] = {
    "lock": lambda world, number: world.locks.at(number),
    "queue": lambda world, number: world.queues.at(number),
    "call": lambda world, number: world.calls.at(number),
    "loop": lambda world, number: world.loops.at(number),
    "task": lambda world, number: world.tasks.at(number),
    "job": lambda world, number: world.jobs.get(number),
}


def _name_of_object(world: World, kind: str, number: int) -> Optional[str]:
    thing = _OBJECTS[kind](world, number)
    return (thing.name or None) if thing is not None else "of none"


def _values(fold: Fold, told: Sequence[Told]) -> Iterator[str]:
    """The values that are left in queues."""
    for line in told:
        if line["type"] == "left" and line["kind"] == "values":
            queue = fold.world.queues.at(line["object"]["number"])
            rows = queue.stored[queue.taken :] if queue is not None else []
            entries = [fold.rows[row].entry for row in rows]
            values = [json.loads(entry.line[entry.head :]) for entry in entries]
            if line["values"] != values:
                yield f"the values of {line} are {values} by the fold"
