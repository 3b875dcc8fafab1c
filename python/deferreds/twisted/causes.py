"""Differences that have one cause, as far as their first lines that differ show it."""

from __future__ import annotations

import re
from typing import Dict, Hashable, List, NamedTuple, Tuple

from .classes import BUILT_IN
from .comparing import Difference

#: what a part of a line is, where it isn't a word of the language
_NUMBER, _DEFERRED, _VALUE, _NAME = "a number", "a Deferred", "a value", "a name"

_PART = re.compile(r'"(?:[^"\\]|\\.)*"|\[.*\]|\S+')
_WORDS = frozenset(("ok", "fail", "call", "loop", "tick", "job", "timeout", *BUILT_IN))


class Cause(NamedTuple):
    """The differences of one cause: the first one's name, and how many there are."""

    name: str
    number: int
    is_shown: bool


def key_of(found: Difference) -> Hashable:
    """What differences of one cause have in common: the words of both lines, and the first parts that differ, by their kinds."""
    ours, theirs = _parts(found.ours), _parts(found.theirs)
    place = next((place for place, (one, other) in enumerate(zip(ours, theirs)) if one != other), min(len(ours), len(theirs)))
    parts = tuple(_kind(line[place], place) if place < len(line) else "" for line in (ours, theirs))
    return found.entry, _kind(ours[0], 0), _kind(theirs[0], 0), place, parts


def _parts(line: str) -> List[str]:
    """The parts of a line. How a run has ended is one part, without what it has written to standard error."""
    if line.startswith("("):
        return [line.partition("; standard error")[0]]
    return _PART.findall(line) or [""]


def _kind(part: str, place: int) -> str:
    """What a part of a line is: itself, if it is a word of the language or the line's own."""
    if part.startswith("#"):
        return _DEFERRED
    if part[:1] in ('"', "["):
        return _VALUE
    if re.fullmatch("-?[0-9]+", part):
        return _NUMBER
    return part if place == 0 or part in _WORDS else _NAME


class Causes:
    """Counts differences by their causes, as many as one may show."""

    def __init__(self) -> None:
        self._causes: Dict[Hashable, Cause] = {}

    def count(self, name: str, found: Difference, may_show: bool) -> bool:
        """Counts a difference, by the name of its script. Returns whether it is the first of its cause, and is shown."""
        key = key_of(found)
        before = self._causes.get(key)
        if before is not None:
            self._causes[key] = before._replace(number=before.number + 1)
            return False
        self._causes[key] = Cause(name, 1, may_show)
        return may_show

    def lines(self) -> List[str]:
        """What is said of those that weren't shown."""
        said = [
            f"{cause.number - 1} more {'differs' if cause.number == 2 else 'differ'} as {cause.name} does"
            for cause in self._causes.values()
            if cause.is_shown and cause.number > 1
        ]
        causes, differences = self._hidden()
        if differences:
            of = f", of {causes} more causes," if causes > 1 else ", of one more cause,"
            number = f"{differences} more {'difference' if differences == 1 else 'differences'}"
            said.append(f"{number}{of} {'isn' if differences == 1 else 'aren'}'t shown; --show all shows each")
        return said

    def _hidden(self) -> Tuple[int, int]:
        counts = [cause.number for cause in self._causes.values() if not cause.is_shown]
        return len(counts), sum(counts)
