"""How two runs go on behind an entry of docs/TWISTED.md.

Where an implementation differs from ours as Twisted does, real Twisted runs the script twice: as far as it does what the implementation
does, and with all rules of `rules`. The first run has to be the implementation's, and the second one ours, each to its end.
"""

from __future__ import annotations

from typing import Dict, FrozenSet, Iterator, List, NamedTuple, Optional, Union

from .answers import First, compared
from .posts import Batch
from .profile import Entry
from .programs import Answer
from .rules import RULES
from .running import Run, run


class Named(NamedTuple):
    """Twisted does what the implementation does, and an entry names that."""

    entry: Entry
    #: whether the runs aren't compared to their ends, since Twisted can't do there what we do
    is_cut: bool


class Unnamed(NamedTuple):
    """Behind an entry the implementation does what Twisted doesn't, or we do what Twisted doesn't do with our rules."""

    #: the first line that differs, from 1; what ours has there, or what is expected; and what the implementation has, or Twisted
    first: First
    #: the last entry before the line
    behind: Optional[Entry]
    #: whether it is ours that does so
    is_ours: bool


class Twisted:
    """Real Twisted, which runs one script, and does at some entries what we do."""

    def __init__(self, script: str, batches: Optional[List[Batch]]) -> None:
        self._script = script.encode()
        self._batches = batches
        self._runs: Dict[FrozenSet[Entry], Run] = {}

    def run(self, rules: FrozenSet[Entry]) -> Run:
        """The run with these rules. Raises Refused."""
        if rules not in self._runs:
            self._runs[rules] = run(self._script, self._batches, rules=rules)
        return self._runs[rules]

    def first(self, rules: FrozenSet[Entry], answer: Answer) -> Optional[First]:
        """In what an answer differs first from the run with these rules: the line, that of the answer, and that of the run."""
        ran = self.run(rules)
        return compared(answer, Answer(ran.status, ran.output, ""))

    def before(self, rules: FrozenSet[Entry], line: int) -> Iterator[Entry]:
        """The entries that the run with these rules has reached before a line, the last one first."""
        return (entry for place, entry in reversed(self.run(rules).quirks) if place < line)

    def is_stack_full(self, rules: FrozenSet[Entry], first: First) -> bool:
        """Whether Python's stack is full here for one of the two. How much room it has depends on what it had before the run."""
        _, *lines = first
        is_reached = any(entry is Entry.PYTHON_STACK for _, entry in self.run(rules).quirks)
        return is_reached and any("RecursionError" in line for line in lines)

    def followed(self, answer: Answer) -> FrozenSet[Entry]:
        """The rules with which the run is that of an answer, or is so up to the latest line."""
        rules: FrozenSet[Entry] = frozenset()
        better: Optional[FrozenSet[Entry]] = rules
        while better is not None:
            rules = better
            better = self._better(rules, answer)
        return rules

    def _better(self, rules: FrozenSet[Entry], answer: Answer) -> Optional[FrozenSet[Entry]]:
        """These rules and one more, with which the run is that of an answer up to a later line, or to the end."""
        first = self.first(rules, answer)
        if first is None:
            return None
        for entry in dict.fromkeys(self.before(rules, first[0])):
            more = rules | {entry}
            later = self.first(more, answer) if entry in RULES else first
            if later is None or later[0] > first[0]:
                return more
        return None


def explain(twisted: Twisted, line: int, ours: Answer, theirs: Answer) -> Union[Named, Unnamed, None]:
    """Finds the entry that explains a difference in this line, and whether runs agree behind it; None where no entry is reached before it. Raises Refused."""
    rules = twisted.followed(theirs)
    first = twisted.first(rules, theirs)
    if first is not None and first[0] <= line:
        return Named(Entry.PYTHON_STACK, True) if twisted.is_stack_full(rules, first) else None
    entry = next(twisted.before(rules, line), None)
    if entry is None:
        return None
    last = [_last(twisted, rules, theirs, entry, False), _last(twisted, RULES, ours, entry, True)]
    unnamed = [each for each in last if isinstance(each, Unnamed)]
    return unnamed[0] if unnamed else Named(entry, any(each is not None for each in last))


def _last(
    twisted: Twisted, rules: FrozenSet[Entry], answer: Answer, entry: Entry, is_ours: bool
) -> Union[Named, Unnamed, None]:
    """Where an answer isn't what Twisted does with these rules: behind a full stack, or where nothing says so. None: it is, to its end."""
    first = twisted.first(rules, answer)
    if first is None:
        return None
    reached = list(twisted.before(rules, first[0]))
    if Entry.PYTHON_STACK in reached:
        return Named(entry, True)
    line, its, of_twisted = first
    lines = (its, of_twisted) if is_ours else (of_twisted, its)
    return Unnamed((line, *lines), next(iter(reached), entry), is_ours)
