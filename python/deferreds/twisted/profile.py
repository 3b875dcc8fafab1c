"""The entries of docs/TWISTED.md that a run can reach, by the names that they have there."""

from __future__ import annotations

import enum
from typing import Dict, FrozenSet

from . import grammar


class Entry(enum.Enum):
    """A place where Twisted does otherwise than `deferreds`: its name in docs/TWISTED.md."""

    PAUSED_RECEIVER = "paused-receiver"
    ABANDONED_CHAIN = "abandoned-chain"
    UNPAUSE_AT_ZERO = "unpause-at-zero"
    PAUSE_IN_OWN_SIDE = "pause-in-own-side"
    CIRCLE_OF_WAITS = "circle-of-waits"
    CANCEL_OF_A_FIRED_LIST = "cancel-of-a-fired-list"
    CANCELLED_INLINE = "cancelled-inline"
    CANCELLED_RUNNING_INLINE = "cancelled-running-inline"
    GATHER_FIRED_BY_HAND = "gather-fired-by-hand"
    ERROR_LEAVES_ADVANCE = "error-leaves-advance"
    RESET_ORDER = "reset-order"
    DELAY_BOUNDS = "delay-bounds"
    LOOP_FIRED_BY_HAND = "loop-fired-by-hand"
    SKIPPED_TURN = "skipped-turn"
    JOIN_AFTER_THE_LAST = "join-after-the-last"
    TICK_SCHEDULED_IN_A_TICK = "tick-scheduled-in-a-tick"
    REFUSED_WHEN_DONE = "refused-when-done"
    TASK_ENDED_TWICE = "task-ended-twice"
    TASK_LEFT_BY_STOP = "task-left-by-stop"
    HOLD_ON_AN_ENDED_TASK = "hold-on-an-ended-task"
    PYTHON_STACK = "python-stack"


#: the entries of how tasks take turns, by the rule for that: those that a Cooperator of a script can reach
_OF_TURNS: Dict[str, FrozenSet[Entry]] = {
    grammar.FAIR: frozenset({Entry.SKIPPED_TURN, Entry.TICK_SCHEDULED_IN_A_TICK}),
    grammar.TWISTED: frozenset(),
}

#: all entries of how tasks take turns
TURN_ENTRIES: FrozenSet[Entry] = frozenset({Entry.JOIN_AFTER_THE_LAST}).union(*_OF_TURNS.values())


def entries_of_turns(turns: str, version: int) -> FrozenSet[Entry]:
    """The entries of how tasks take turns that a Cooperator can reach whose turns go by this rule, in a script of this version."""
    entries = _OF_TURNS[turns]
    return entries if version >= grammar.TURN_RULES_SINCE else entries | {Entry.JOIN_AFTER_THE_LAST}
