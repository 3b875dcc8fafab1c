"""Which rows of the chart are one row that opens: built-in pairs, sides without effect, equal turns (python/NOTES.md, "Folding").

All is read off the lines, so it is the same for a journal and for exact facts. Nothing is left out of the page: a fold
names the rows that it hides as long as it is shut.
"""

from __future__ import annotations

import re
from typing import Dict, Iterator, List, Mapping, NamedTuple, Optional, Tuple

from .records import Row

#: how often equal turns come at least that are one row, and of how many parts at most a turn has: an advance, a turn, a call
_FEWEST_TURNS, _MOST_PARTS = 3, 4

_STARTS = frozenset({"advance", "turn", "tick", "tickin", "call"})
_TURNS = frozenset({"turn", "tick", "tickin"})
_NUMBERS = re.compile(r"#?\b\d+\b|(?:_\d+)+\b")

#: how many equal lines make one row
_FEWEST_SAME = 5


class Folded(NamedTuple):
    """A fold: what it is of, the row that stays, the first and the last row that it may hide, and how often equal turns come."""

    kind: str
    row: int
    first: int
    last: int
    times: int = 0


#: what a fold is of: pairs that were added, sides without effect, a token that is given back, a next turn that is scheduled, equal turns
PAIRS, SIDES, TOKEN, LOOP, TURNS = "p", "w", "k", "l", "s"


def same_lines(rows: List[Row], window: range) -> Dict[int, int]:
    """The first of many equal lines of an event, with how many they are."""
    found: Dict[int, int] = {}
    first = window.start
    for at in range(window.start + 1, window.stop + 1):
        if at < window.stop and rows[at].entry.line == rows[first].entry.line and rows[at].event == rows[first].event:
            continue
        if at - first >= _FEWEST_SAME:
            found[first] = at - first
        first = at
    return found


class Folding:
    """The folds of some rows; of equal lines only the first is looked at."""

    def __init__(self, rows: List[Row], window: range, same: Mapping[int, int]) -> None:
        self._all = rows
        self._window = window
        self._repeats = {at for first, count in same.items() for at in range(first + 1, first + count)}

    def folds(self) -> Iterator[Folded]:
        """The folds."""
        yield from self._small()
        yield from self._turns()

    def _word(self, row: int, inside: Optional[int] = None) -> str:
        """The word of a row of the window that lies in this one, else an empty text."""
        if row not in self._window or row in self._repeats or self._all[row].inside != inside:
            return ""
        return self._all[row].entry.word

    # built-in pairs, and sides

    def _small(self) -> Iterator[Folded]:
        at = self._window.start
        while at < self._window.stop:
            found = self._pairs(at) or self._sides(at) or self._built_in(at)
            if found is not None:
                yield found
            at = max(found.row, found.last) + 1 if found is not None else at + 1

    def _pairs(self, at: int) -> Optional[Folded]:
        """A time-out, a list, what asks for a token, or an inline body that awaits: the pairs that it adds are hidden."""
        row = self._all[at]
        inside, number, after = row.inside, row.entry.deferred, at + 1
        if row.entry.word == "later" and row.entry.what == "timeout":
            while self._adds(after, inside, number) and after < at + 3:
                after += 1
        elif row.entry.word == "await":
            after += self._adds(after, inside, row.entry.other)
        elif row.entry.word == "new" and self._word(after, inside) == "acquire":
            after += 1
            after += self._word(after, inside) == "fire" and self._all[after].entry.deferred == number
            after += self._adds(after, inside, number)
        elif row.entry.word == "new":
            while self._word(after, inside) == "add" and not self._adds(after, inside, number):
                after += 1
            after += after > at + 1 and self._adds(after, inside, number)
        return Folded(PAIRS, at, at + 1, after - 1) if after > at + 1 else None

    def _adds(self, at: int, inside: Optional[int], number: int) -> bool:
        return self._word(at, inside) == "add" and self._all[at].entry.deferred == number

    def _sides(self, at: int) -> Optional[Folded]:
        """Sides of a Deferred that do nothing: the first may change its value, and those after it pass that on."""
        number, inside = self._all[at].entry.deferred, self._all[at].inside
        end = at
        while self._word(end, inside) == "run" and self._ends_at_once(end, number, inside):
            if end > at and self._all[end + 1].entry.outcome != self._all[end - 1].entry.outcome:
                break
            end += 2
        return Folded(SIDES, end - 1, at, end - 2) if end > at else None

    def _ends_at_once(self, at: int, number: int, inside: Optional[int]) -> bool:
        return self._all[at].entry.deferred == number and self._word(at + 1, inside) == "set" and self._all[at + 1].entry.deferred == number

    def _built_in(self, at: int) -> Optional[Folded]:
        """A side that gives a token back to nobody who waits, or schedules the next turn of a loop, and does nothing else."""
        row = self._all[at]
        if self._word(at, row.inside) != "run" or self._word(at + 2, row.inside) != "set":
            return None
        does = self._word(at + 1, at)
        is_loop = does == "later" and self._all[at + 1].entry.what == "loop"
        if self._all[at + 2].entry.deferred != row.entry.deferred or not (is_loop or does == "release"):
            return None
        return Folded(LOOP if is_loop else TOKEN, at + 2, at, at + 1)

    # equal turns

    def _turns(self) -> Iterator[Folded]:
        """Turns that come again and again with the same lines, but for numbers and times: the first stays."""
        parts = list(self._parts())
        signs: Dict[Tuple[str, ...], int] = {}
        names = [signs.setdefault(tuple(map(_sign, self._all[part.start : part.stop])), len(signs)) for part in parts]
        at = 0
        while at < len(parts):
            size, count = max(((size, _repeats(names, at, size)) for size in range(1, _MOST_PARTS + 1)), key=lambda one: (one[1] - 1) * one[0])
            turn = next((part.start for part in parts[at : at + size] if self._all[part.start].entry.word in _TURNS), None)
            if count < _FEWEST_TURNS or turn is None:
                at += max(1, size * (count - 1))
                continue
            last = parts[at + size * count - 1].stop - 1
            if last > turn:
                yield Folded(TURNS, turn, turn + 1, last, count)
            at += size * count

    def _parts(self) -> Iterator[range]:
        """The rows of the window from one advance, turn, tick or call to the next; what lies in a side begins none."""
        start: Optional[int] = None
        for at in self._window:
            row = self._all[at]
            if row.entry.word in _STARTS and not row.sides:
                if start is not None:
                    yield range(start, at)
                start = at
        if start is not None:
            yield range(start, self._window.stop)


def _sign(row: Row) -> str:
    """What a line says, but for numbers of Deferreds, times, and the numbers that names end with."""
    entry = row.entry
    return f"{row.depth} {_NUMBERS.sub('_', entry.line[: entry.head])}{entry.line[entry.head :]}"


def _repeats(names: List[int], at: int, size: int) -> int:
    """How often the parts from this one on come, one after the other."""
    count, end = 1, at + size
    while end + size <= len(names) and names[end : end + size] == names[at : at + size]:
        count, end = count + 1, end + size
    return count
