"""The tree of a Deferred for a terminal: a step a line."""

from __future__ import annotations

from typing import Dict, Iterator, List, Optional, Tuple

from .left import At
from .hanging import object_name
from .phrases import OfDeferred, OfLine, OfScript, OfTime, Part, Phrase, listed, words
from .records import Record
from .run import Run
from .sizes import several
from .stories import MOST_BRANCHES, Does, Step

#: how many firings without effect the head of a tree names
_MOST_NAMED = 3

_HANGS: Dict[At, str] = {
    At.LOCK: "waits for a token of",
    At.QUEUE: "waits for a value of",
    At.JOB: "gets the result of job",
    At.TIMEOUT: "is cancelled at time",
    At.LOOP: "is fired when this loop ends:",
    At.TASK: "is fired when this task ends:",
}


class Tree:
    """What hangs on a Deferred, as phrases."""

    def __init__(self, run: Run, number: int) -> None:
        self._run = run
        self._number = number

    def head(self) -> Phrase:
        """The Deferred, how it ended, and how long it was what."""
        record = self._run.fold.records[self._number]
        vain: List[Part] = [OfLine(row) for row in sorted([*record.refused, *record.swallowed])]
        where: Phrase = (" in ", *listed(vain, _MOST_NAMED)) if vain else ()
        return (OfDeferred(self._number), *self._called(record), " ", OfScript(record.end), ": ", self.spent(record), *where)

    def _called(self, record: Record) -> Phrase:
        """What the inline body of a Deferred was called with, if that is known."""
        call = self._run.places.call_of(record.names)
        return words(", called as ", OfScript(call), ",") if call else words()

    def spent(self, record: Record) -> str:
        """How long the Deferred was unfired, waited and was paused, how many of its sides ran, and how many firings had no effect."""
        spent = self._run.durations.of(record)
        paused = [f"paused {self._run.ticks(spent.paused)}"] if spent.paused else []
        parts = [f"unfired {self._run.ticks(spent.unfired)}", f"waited {self._run.ticks(spent.waited)}", *paused]
        waiting = [several(record.waiting_pairs, "pair waits", "pairs wait")] if record.waiting_pairs else []
        return ", ".join([*parts, f"{several(spent.sides, 'callback', 'callbacks')} ran", *waiting, *record.in_vain])

    def lines(self) -> Iterator[Tuple[int, Phrase]]:
        """The branches: how deep each lies, and what it says."""
        for count, branch in enumerate(self._run.stories.tree(self._number)):
            if count == MOST_BRANCHES:
                yield 1, (f"and more: a tree has {MOST_BRANCHES} lines at most",)
                return
            yield branch.depth, self._said(branch.step, branch.opens)

    def _said(self, step: Step, opens: bool) -> Phrase:
        if step.row is None:
            return self._hangs(step)
        other = self._other(step, opens)
        own = OfScript(self._run.fold.rows[step.row].entry.line)
        said: Dict[Does, Phrase] = {
            Does.MADE: ("is made in a callback of ", *other) if other else ("is made",),
            Does.FIRED: ("is fired: ", own, *self._by(step, other)),
            Does.WAITS: ("waits for ", *other, *self._until(step)),
            Does.AWAITED: ("is awaited by ", *other, *self._who_awaits(step)),
            Does.RAN: ("a callback runs", *self._comes_to(step)),
            Does.MAKES: ("makes ", *other),
            Does.FIRES: ("fires ", *other, ": ", own),
            Does.CALLS: (own, *self._came(step)),
            Does.REFUSED: (own, *self._because(step)),
            Does.SWALLOWED: (own, *self._because(step)),
        }
        return (*said.get(step.does, (own,)), "  (", OfLine(step.row), ")")

    def _other(self, step: Step, opens: bool) -> Phrase:
        """Whom a step names; with its own time if its steps stand below."""
        record = self._run.fold.records.get(step.other) if step.other is not None else None
        if record is None:
            return ()
        spent = words(" [", self.spent(record), "]") if opens else words()
        return (OfDeferred(record.number), *spent)

    def _who_awaits(self, step: Step) -> Phrase:
        record = self._run.fold.records.get(step.other) if step.other is not None else None
        return self._called(record)[:-1] if record is not None else ()

    def _hangs(self, step: Step) -> Phrase:
        if step.hang is not None and step.hang.at is At.TIMEOUT:
            return (f"{_HANGS[step.hang.at]} ", OfTime(step.hang.number))
        if step.hang is not None:
            name = object_name(self._run.fold, step.hang)
            return (f"{_HANGS[step.hang.at]} ", OfScript(name))
        said = "waits for its child " if step.does is Does.CHILD else "is fired by a pair of "
        return words(said, *self._other(step, False))

    def _by(self, step: Step, other: Phrase) -> Phrase:
        return words(" by a callback of ", *other) if other else self._because(step)

    def _because(self, step: Step) -> Phrase:
        row = self._run.fold.rows[step.row or 0]
        because: Phrase = (" ← ", *row.cause)
        return because if row.cause else ()

    def _until(self, step: Step) -> Phrase:
        if step.end is None:
            return (", and still does",)
        ticks = self._run.durations.between(step.row or 0, step.end)
        return (", until ", OfLine(step.end), f": {self._run.ticks(ticks)}")

    def _comes_to(self, step: Step) -> Phrase:
        if step.end is None:
            return (", and hasn't ended",)
        return (" → ", OfScript(self._run.fold.rows[step.end].entry.line))

    @staticmethod
    def _came(step: Step) -> Phrase:
        return words(", which came in ", OfLine(step.end)) if step.end is not None else words()


def found(run: Run, asked: str) -> Optional[List[int]]:
    """The Deferreds of a number, as `43` or `#43`, or of a name; None where there is none."""
    text = asked[1:] if asked.startswith("#") else asked
    if text.isdecimal() and int(text) in run.fold.records:
        return [int(text)]
    numbers = [record.number for record in run.fold.records.values() if asked in record.names]
    return numbers or None
