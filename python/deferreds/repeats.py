"""The events of a script, in which those of a `repeat` stand as often as they happen."""

from __future__ import annotations

from typing import Any, List, Sequence

from .language import LANGUAGE

#: more events than a script may have
_MOST = LANGUAGE.limits["nodes"] + 1


def written_out(events: Sequence[Any]) -> List[Any]:
    """The events in order, with repeats written out. What isn't of the form stays, and no more are there than a script may have."""
    found: List[Any] = []
    for event in events:
        if is_repeat(event):
            inside = written_out(event[2])
            for _ in range(min(event[1], _MOST // max(1, len(inside)) + 1)):
                found.extend(inside)
        else:
            found.append(event)
        if len(found) >= _MOST:
            return found[:_MOST]
    return found


def is_repeat(event: object) -> bool:
    """Whether an event is a repeat of a count and an array."""
    return (
        isinstance(event, list)
        and len(event) == 3
        and event[0] == "repeat"
        and isinstance(event[1], int)
        and isinstance(event[2], list)
    )
