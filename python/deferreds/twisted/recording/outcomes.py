"""The outcomes of a run after some of its lines, by these lines alone."""

from __future__ import annotations

from typing import Dict, List, Sequence

_NULL = "ok null"


class _Deferred:
    """What the lines have told of a Deferred."""

    def __init__(self, name: str) -> None:
        self.name = name
        self.state = "unfired"
        self.pauses = 0

    def line(self, number: str) -> str:
        """Its line among the outcomes."""
        paused = "paused " if self.pauses > 0 else ""
        return f"{number} {self.name} {paused}{self.state}"


def outcomes_of(lines: Sequence[str]) -> List[str]:
    """The line of each Deferred that these lines of a journal have made, after an event has ended."""
    made: Dict[str, _Deferred] = {}
    for line in lines:
        _follow(made, line)
    return [deferred.line(number) for number, deferred in made.items()]


def _follow(made: Dict[str, _Deferred], line: str) -> None:
    """Changes what is known by what a line tells."""
    word, _, rest = line.partition(" ")
    number, _, told = rest.partition(" ")
    if word == "new":
        made[number] = _Deferred(told)
    elif word in ("fire", "set"):
        made[number].state = told
    elif word == "wait":
        made[number].state = f"waiting {told}"
    elif word == "take":
        giver, _, outcome = told.partition(" ")
        made[giver].state = _NULL
        made[number].state = outcome
    elif word == "hand":
        receiver, _, outcome = told.partition(" ")
        made[number].state = _NULL
        made[receiver].state = outcome
    elif word == "pause":
        made[number].pauses += 1
    elif word == "unpause":
        made[number].pauses -= 1
