"""Compares what two programs print for a script, line by line."""

from __future__ import annotations

import re
from typing import List, Optional, Tuple

from .children import last_line, named_status
from .programs import Answer
from .rows import filled
from .running import AT_LIMIT, OVER, UNMET

_REFUSED = re.compile(r"script refused: (\d+ \w+)")

#: the first line in which two answers differ, from 1, and that line of each
First = Tuple[int, str, str]


def compared(ours: Answer, theirs: Answer) -> Optional[First]:
    """The first line in which they differ, from 1, and that line of each; where one of them has ended there, how.

    Two answers that both aren't whole differ at their end, even where both are so for one reason.
    """
    other = theirs.output.splitlines()
    mine = filled(ours.output.splitlines(), other)
    for place, (line, another) in enumerate(zip(mine, other)):
        if line != another:
            return place + 1, line, another
    if len(mine) != len(other):
        place = min(len(mine), len(other))
        return place + 1, _line(mine, place, ours), _line(other, place, theirs)
    if ours.lack is not None or _end(ours) != _end(theirs):
        return len(mine) + 1, ending(ours), ending(theirs)
    return None


def _line(lines: List[str], place: int, answer: Answer) -> str:
    return lines[place] if place < len(lines) else ending(answer)


def _end(answer: Answer) -> Tuple[object, ...]:
    """By what the ends of two runs are compared: standard error counts where a script is refused."""
    return answer.status, answer.lack, answer.errors if answer.status == 2 else ""


def ending(answer: Answer) -> str:
    """How a run has ended, in a few words: `(refused, 6 BadName)`."""
    if answer.lack is not None:
        return f"({_with_errors(answer.lack.why, answer.errors)})"
    refused = _REFUSED.fullmatch(answer.errors.strip())
    if answer.status == 2 and refused is not None:
        return f"(refused, {refused[1]})"
    known = {
        OVER: "the end",
        AT_LIMIT: "stopped at the limit of the journal, status 1",
        UNMET: "a Deferred wasn't as the script expects, status 8",
    }
    how = known.get(answer.status) or f"ended by {named_status(answer.status)}"
    return f"({_with_errors(how, answer.errors)})"


def _with_errors(how: str, errors: str) -> str:
    line = last_line(errors)
    return f"{how}; standard error ends with: {line}" if line else how
