"""Where the lines of a journal lie, if it is known at which line each event begins (docs/JSON.md, "What lies in
what").
"""

from __future__ import annotations

from typing import List, NamedTuple, Sequence

from ..language import LANGUAGE
from .lines import Entry
from .nesting import Place

_DUE = LANGUAGE.lines_that("due", "turn", "tick")
_CLOSERS = LANGUAGE.lines_that("ends")
_OUTER = LANGUAGE.lines_that("outer")


class _Open(NamedTuple):
    """A line in which others lie."""

    row: int
    word: str


class Sections:
    """What is open at a line of an event."""

    def __init__(self) -> None:
        self._open: List[_Open] = []
        self._before = ""

    def begin_event(self) -> None:
        """An event begins: nothing is open."""
        self._open.clear()
        self._before = ""

    def lay(self, entry: Entry, event: int) -> Place:
        """Where the line lies; what it begins is open then."""
        in_side = bool(self._open) and self._open[-1].word == "run"
        if in_side and entry.word in _CLOSERS:
            self._open.pop()
        elif not in_side:
            self._leave(entry)
        place = Place(event, self._open[-1].row if self._open else None, len(self._open))
        if entry.word == "run" or entry.word in _OUTER or (
            not in_side and (entry.word == "step" or self._is_due(entry))
        ):
            self._open.append(_Open(entry.row, entry.word))
        self._before = entry.word
        return place

    def _is_due(self, entry: Entry) -> bool:
        """Whether the line begins what is due: a first turn right after its `loop` is performed where that is."""
        return entry.word in _DUE and not (entry.word == "turn" and self._before == "loop")

    def _leave(self, entry: Entry) -> None:
        """What comes due ends what came due before it; a step, and the scheduling of the next tick, end only the step before."""
        if entry.word == "step" or (entry.word == "later" and entry.what in ("tick", "tickin")):
            if self._open and self._open[-1].word == "step":
                self._open.pop()
        elif self._is_due(entry):
            while self._open and self._open[-1].word not in _OUTER:
                self._open.pop()


def places_of(entries: Sequence[Entry], begins: Sequence[int]) -> List[Place]:
    """The place of each line, where the events begin at these lines; one of no line begins where the next one does."""
    sections, event = Sections(), -1
    found: List[Place] = []
    for entry in entries:
        while event + 1 < len(begins) and begins[event + 1] <= entry.row:
            event += 1
            sections.begin_event()
        found.append(sections.lay(entry, event))
    return found
