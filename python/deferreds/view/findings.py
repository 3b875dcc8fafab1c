"""Rows of the report: how bad each is, and what it tells of."""

from __future__ import annotations

import enum
from typing import NamedTuple, Optional, Sequence, Tuple

from .phrases import Phrase


class Severity(enum.Enum):
    """How bad it is: to look at, likely a cause, left, or only a note."""

    BAD = "bad"
    LIKELY = "likely"
    LEFT = "left"
    NOTE = "note"


class Kind(enum.Enum):
    """What a row of the report tells of, the worst first."""

    SHAKEN = "shaken"
    STOPPED = "stopped"
    UNMET = "unmet"
    CUT = "cut off"
    UNHANDLED = "unhandled"
    FAILURE = "failure"
    CIRCLE = "circle"
    HELD = "held"
    WENT_ON = "went on"
    KEPT = "kept"
    NOT_RETURNED = "no return"
    ODD = "odd"
    OVERTAKEN = "overtaken"
    UNFIRED = "unfired"
    PAUSED = "paused"
    WAITING = "waiting"
    TOKEN = "token"
    GETTER = "getter"
    CALL = "call"
    TIMER = "timer"
    TICK = "tick"
    JOB = "job"
    LOOP = "loop"
    TASK = "task"
    STORED = "stored"
    REFUSED = "refused"
    SWALLOWED = "swallowed"
    GOT_NULL = "got null"


class Finding(NamedTuple):
    """A row of the report."""

    severity: Severity
    kind: Kind
    said: Phrase
    details: Tuple[Phrase, ...]
    #: the row of the journal that it links
    row: Optional[int]


def details_of(*parts: Sequence[Phrase]) -> Tuple[Phrase, ...]:
    """The phrases of these parts, without empty ones."""
    return tuple(phrase for part in parts for phrase in part if phrase)
