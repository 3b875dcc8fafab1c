"""The data of the rows of a page: the line, its word, how deep it lies, whom it names; and what some of them show beside."""

from __future__ import annotations

from typing import Any, Dict, Iterator, List, Tuple

from .events import Events
from .lines import WORDS
from .places import Place
from .records import By, Row
from .run import Run
from .texts import clipped, shortened, visible

#: how many characters a line has at most on a page, and if all lines together would have more than so many
_MOST_LINE, _LEAST_LINE, _MANY_CHARACTERS = 1_000, 200, 20_000_000
#: the same of events as the script has them
_MOST_WHOLE, _MANY_WHOLE, _LONG = 1_000, 2_000_000, 60
_MOST_HEAD, _MOST_TAIL = 160, 140
#: how near the row of a callback is in which another row lies, if that shows why
_NEAR = 8


class RowData:
    """The columns of these rows."""

    def __init__(self, run: Run, events: Events, rows: range) -> None:
        self._events = events
        self._rows = run.fold.rows[rows.start : rows.stop]
        characters = sum(len(row.entry.line) for row in self._rows)
        self._most = _MOST_LINE if characters <= _MANY_CHARACTERS else _LEAST_LINE
        self._room = _MANY_WHOLE

    def columns(self) -> Dict[str, Any]:
        """What each row has."""
        words = sorted({_word(row) for row in self._rows})
        place = {word: number for number, word in enumerate(words)}
        return {
            "words": words,
            "lines": "\n".join(visible(shortened(row.entry.line, self._most)) for row in self._rows),
            "kinds": [2 * place[_word(row)] + row.entry.fails for row in self._rows],
            "heads": [_head(row) for row in self._rows],
            "depths": [row.depth for row in self._rows],
            "sides": [row.sides for row in self._rows],
            "named": [_named(row.names) for row in self._rows],
        }

    @staticmethod
    def has_cause(row: Row) -> bool:
        """Whether it is said why the row happened: if the rows round it don't show that."""
        return bool(row.cause) and not _shows_cause(row)

    def texts_of(self, row: Row) -> Iterator[Tuple[str, str]]:
        """The event that begins in the row, by the column in which it stands, and all of it if that is more."""
        head, tail = self._events.head(row), self._events.tail(row)
        if head is None and not tail:
            return
        if head is not None:
            yield "events", visible(clipped(head, _MOST_HEAD))
        else:
            yield "tails", visible(clipped(tail, _MOST_TAIL))
        whole = visible(shortened(self._events.whole(row, _LONG), _MOST_WHOLE)) if self._room > 0 else ""
        self._room -= len(whole)
        if whole:
            yield "wholes", whole

    def places_of(self, row: Row) -> Iterator[Tuple[str, Place]]:
        """Where the event was performed that begins in the row, and which line of the program the row tells of."""
        at, near = self._events.place(row), self._events.place_of(row)
        if at is not None:
            yield "at", at
        if near is not None:
            yield "near", near


def _word(row: Row) -> str:
    """The word of a line; an empty text if the line isn't known."""
    return row.entry.word if row.entry.word in WORDS else ""


def _head(row: Row) -> int:
    entry = row.entry
    return entry.head if entry.word in WORDS and entry.head < len(entry.line) else 0


def _named(names: List[int]) -> object:
    return -1 if not names else names[0] if len(names) == 1 else names


def _shows_cause(row: Row) -> bool:
    """Whether the rows round it show why: it lies in the side, or the section, of who acts."""
    if not row.is_plain:
        return False
    return row.actor.by is not By.SIDE or (row.inside is not None and row.place - row.inside <= _NEAR)
