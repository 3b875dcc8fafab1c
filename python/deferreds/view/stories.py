"""What each Deferred does and what is done to it, step by step, and the tree of one with all that hangs on it
(docs/VIEW.md, "One Deferred").
"""

from __future__ import annotations

import enum
from typing import Dict, Iterator, List, NamedTuple, Optional, Set, Tuple

from .bodies import Bodies
from .durations import Durations
from .fold import Fold
from .hanging import object_name
from .left import At, Hang, Left, LeftDeferred
from .records import BracketKind, By, Row

#: how many branches a tree has at most; `story.js` has the same number
MOST_BRANCHES = 2_000

_CLOSERS = frozenset({"set", "take", "wait"})
#: an inline body awaits again, or ends
_STOPS = frozenset({"await", "fire"})
_ASKED = frozenset({"cancel", "pause", "unpause"})
_SILENT = frozenset({"run", "add", "name"})
_BETWEEN = {At.CHILD, At.CHAIN}
#: the look of a Deferred that waits or awaits tells these already
_TOLD = {At.DEFERRED, At.AWAIT}


class Does(enum.Enum):
    """What happens in a step. The letter stands on the page."""

    MADE = "m"
    FIRED = "f"
    WAITS = "w"
    #: the inline body of another awaits it, or another waits for it, up to the end
    AWAITED = "b"
    RAN = "r"
    #: it is cancelled, paused or unpaused
    ASKED = "a"
    #: a firing is refused, or swallowed
    REFUSED = "x"
    SWALLOWED = "s"
    #: a child of a list hasn't come; who is to fire it by a chain
    CHILD = "c"
    CHAIN = "k"
    #: it hangs on an object
    HANGS = "h"
    #: what its side, or a call that a side has scheduled, does: makes a Deferred, fires one, schedules a call, or anything else
    MAKES = "n"
    FIRES = "g"
    CALLS = "l"
    OTHER = "o"


class Step:
    """A step of a Deferred."""

    __slots__ = ("does", "row", "end", "other", "hang")

    def __init__(self, does: Does, row: Optional[int], other: Optional[int] = None, end: Optional[int] = None) -> None:
        self.does = does
        #: the row in which it begins and that in which it ends; no row tells on what one hangs at the end
        self.row = row
        self.end = end
        #: the Deferred that it names beside its own
        self.other = other
        #: the object on which it hangs
        self.hang: Optional[Hang] = None


class Mode(enum.Enum):
    """How much of a Deferred is shown: all; whom it waits for and who fires it; what it leads to; only who fires it."""

    ALL = "all"
    UP = "up"
    DOWN = "down"
    WHY = "why"


class Branch(NamedTuple):
    """A line of a tree: a step, how deep it lies, and whether the steps of the Deferred that it names stand below it."""

    depth: int
    step: Step
    opens: bool


class Stories:
    """The steps of all Deferreds of a run."""

    def __init__(self, fold: Fold, left: List[Left], bodies: Bodies) -> None:
        self._fold = fold
        self._acting = bodies.acting
        self.of: Dict[int, List[Step]] = {number: [] for number in fold.records}
        #: what lies directly in a side or a call, by its row
        self._inside: Dict[int, List[Step]] = {}
        self._came = {one.start: one.end for one in fold.brackets if one.kind is BracketKind.CAME}
        self._runs: Dict[int, List[Step]] = {}
        self._waits: Dict[int, Step] = {}
        self._awaits: Dict[int, Step] = {}
        #: the row in which the last callback of each began
        self._ran: Dict[int, int] = {}
        #: the inline bodies that have awaited
        self._awaited: Set[int] = set()
        for row in fold.rows:
            self._end_awaits(row)
            self._note_first(row)
            self._note(row)
            self._note_inside(row)
        self._note_awaited()
        for one in left:
            if isinstance(one, LeftDeferred) and not one.running:
                self._note_hangs(one)

    def _own(self, number: int, step: Step) -> Step:
        self.of[number].append(step)
        return step

    def _note(self, row: Row) -> None:
        """The step of the Deferred that the line is about."""
        entry, place = row.entry, row.place
        number, word = entry.deferred, entry.word
        source = row.actor.number if row.actor.by is By.SIDE else None
        if word in _STOPS:
            self._goes_on(number, place)
        if word == "new":
            self._own(number, Step(Does.MADE, place, source))
        elif word == "fire":
            self._own(number, Step(Does.FIRED, place, source))
        elif word in _ASKED:
            self._own(number, Step(Does.ASKED, place, source))
        elif word in _IN_VAIN:
            self._own(number, Step(_IN_VAIN[word], place, source))
        elif word == "run":
            self._ran[number] = place
            self._runs.setdefault(number, []).append(self._own(number, Step(Does.RAN, place)))
        elif word == "hand":
            waits = self._waits.pop(number, None)
            if waits is not None:
                waits.end = place
        elif word == "await":
            self._awaits[number] = self._own(number, Step(Does.WAITS, place, entry.other))
            self._awaited.add(number)
        if word in _CLOSERS and row.closes and self._runs.get(number):
            self._runs[number].pop().end = place
        if word == "take":
            self._own(number, Step(Does.WAITS, place, entry.other, place))
        elif word == "wait":
            self._waits[number] = self._own(number, Step(Does.WAITS, place, entry.other))

    def _end_awaits(self, row: Row) -> None:
        """An inline body goes on in the side of whom it awaits, and does something there."""
        if row.actor.by is not By.SIDE:
            return
        for number in row.names:
            step = self._awaits.get(number)
            if step is not None and step.other == row.actor.number:
                step.end = row.inside
                del self._awaits[number]

    def _goes_on(self, body: int, place: int) -> None:
        """An inline body has gone on, at the latest in this row: at once, if whom it awaited was fired already."""
        step = self._awaits.pop(body, None)
        if step is not None and step.row is not None and step.other is not None:
            ran = self._ran.get(step.other, place)
            step.end = ran if ran > step.row else place

    def _note_first(self, row: Row) -> None:
        """What an inline body does before it awaits anything."""
        body, word = self._acting.get(row.place), row.entry.word
        if body is None or body in self._awaited or (word in _STOPS and row.entry.deferred == body):
            return
        step = self._inner(row)
        if step is not None:
            self._own(body, step)

    def _note_inside(self, row: Row) -> None:
        step = self._inner(row) if row.inside is not None else None
        if step is not None and row.inside is not None:
            self._inside.setdefault(row.inside, []).append(step)

    def _inner(self, row: Row) -> Optional[Step]:
        """The step of what the line lies in, if it is one."""
        entry = row.entry
        if row.closes or entry.word in _SILENT or entry.word in _CLOSERS:
            return None
        does = {"new": Does.MAKES, "fire": Does.FIRES}.get(entry.word, Does.OTHER)
        end = None
        if entry.word == "later" and entry.what == "call":
            does, end = Does.CALLS, self._came.get(row.place)
        other = entry.deferred if entry.deferred >= 0 else None
        return Step(does, row.place, other, end)

    def _note_awaited(self) -> None:
        """Who awaits a Deferred, or waits for it, when the run ends."""
        for number, step in [*self._awaits.items(), *self._waits.items()]:
            if step.other is not None and step.other in self.of:
                self._own(step.other, Step(Does.AWAITED, step.row, number))

    def _note_hangs(self, one: LeftDeferred) -> None:
        for hang in one.hangs:
            if hang.at in _TOLD:
                continue
            if hang.at in _BETWEEN:
                does = Does.CHILD if hang.at is At.CHILD else Does.CHAIN
                self._own(one.number, Step(does, None, hang.number))
                continue
            step = self._own(one.number, Step(Does.HANGS, None))
            step.hang = hang

    def inside(self, step: Step) -> List[Step]:
        """What a side did directly, or a call that came."""
        place = step.end if step.does is Does.CALLS else step.row if step.does is Does.RAN else None
        return self._inside.get(place, []) if place is not None else []

    # the tree

    def tree(self, number: int) -> Iterator[Branch]:
        """The steps of a Deferred, and below each those of whom it names, as far as they hang on this one."""
        shown: Set[int] = {number}
        claimed: Set[int] = set()
        todo: List[Tuple[Step, Mode, int]] = []

        def enter(one: int, mode: Mode, depth: int) -> None:
            steps = self.of.get(one, [])
            if mode is Mode.WHY:
                steps = [step for step in steps if step.does is Does.FIRED]
            else:
                claimed.update(step.other for step in steps if step.does in _UP and step.other is not None)
            todo.extend((step, mode, depth) for step in reversed(steps))

        enter(number, Mode.ALL, 1)
        while todo:
            step, mode, depth = todo.pop()
            if step.does is Does.AWAITED and mode is not Mode.ALL:
                continue  # (it is in that one's tree that this one stands)
            below = self._mode_below(step, mode)
            other = step.other
            opens = below is not None and other is not None and other not in shown
            opens = opens and (step.does in _UP or other not in claimed)
            yield Branch(depth, step, opens)
            inner = Mode.UP if mode is Mode.UP else Mode.DOWN
            todo.extend((one, inner, depth + 1) for one in reversed(self.inside(step) if mode is not Mode.WHY else []))
            if opens and other is not None and below is not None:
                shown.add(other)
                enter(other, below, depth + 1)

    @staticmethod
    def _mode_below(step: Step, mode: Mode) -> Optional[Mode]:
        """How much of the Deferred that a step names is shown below it."""
        if step.does in _UP:
            return Mode.UP if mode is not Mode.WHY else None
        if step.does is Does.FIRED:
            return Mode.WHY
        if step.does in (Does.MAKES, Does.FIRES):
            return Mode.DOWN if mode in (Mode.ALL, Mode.DOWN) else None
        return None

    # on the page

    def written(self, number: int, durations: Durations) -> str:
        """The steps of a Deferred as the page has them: a letter, the row in which a step begins, and that in which it ends."""
        return " ".join(word for step in self.of.get(number, []) for word in self._words(step, durations))

    def _words(self, first: Step, durations: Durations) -> Iterator[str]:
        todo: List[Optional[Step]] = [first]
        while todo:
            step = todo.pop()
            if step is None:
                yield ")"
                continue
            row = str(step.row) if step.row is not None else ""
            end = f"-{step.end}" if step.end is not None else ""
            if step.does is Does.WAITS and step.end is not None:
                end += f",{durations.between(step.row or 0, step.end)}"
            other = f"#{step.other}" if step.other is not None else ""
            hang = f"{step.hang.at.value}/{object_name(self._fold, step.hang)}" if step.hang is not None else ""
            yield f"{step.does.value}{row}{end}{other}{hang}"
            inner = self.inside(step)
            if inner:
                yield "("
                todo.append(None)
                todo.extend(reversed(inner))


#: firings that have no effect
_IN_VAIN = {"refuse": Does.REFUSED, "swallow": Does.SWALLOWED}
_UP = frozenset({Does.WAITS, Does.CHILD, Does.CHAIN})
