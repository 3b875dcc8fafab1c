"""The functions of the program in which something happened, innermost first: those on Python's stack, and those that had begun the body.

Where Twisted calls the program back, Python's stack has no caller that tells anything. There a stack goes on where the body was handed to
Twisted: where an inline body or a coroutine was called, where a callback was added, where a delayed call was scheduled.
"""

from __future__ import annotations

from typing import Any, Dict, Iterator, List, Mapping, Optional, Sequence

from ..telling import Action, Record
from .bodies import Body, Steps
from .places import ProgramLine

#: how many functions a stack has at most
_MOST = 4
#: what stands in a function as a part of it
_INNER = frozenset({"<listcomp>", "<genexpr>", "<dictcomp>", "<setcomp>"})

#: the lines on Python's stack, and then those of each body around it
Stack = List[List[ProgramLine]]


class Stacks:
    """Finds the stacks of actions and Deferreds, by their lines and those of their callers."""

    def __init__(self, events: Sequence[Action], lines: Mapping[int, List[ProgramLine]]) -> None:
        """`lines`: those of each action and Deferred, by their numbers of Python, if they are known."""
        self._lines = lines
        #: the actions that have handed the bodies to Twisted in whose runs others were, by the numbers of Python for the runs and the others
        self._around: Dict[int, Action] = {}
        for action, around in _each(events):
            if around is not None:
                self._around[id(action)] = around
            for run in _runs(action):
                self._around[id(run)] = action

    def of_action(self, action: Action) -> Stack:
        """The stack of an action."""
        return self._stack(self._lines.get(id(action)), self._around.get(id(action)))

    def of_record(self, record: Record) -> Stack:
        """The stack in which a Deferred was made."""
        made_in = record.made_in
        return self._stack(self._lines.get(id(record)), None if made_in is None else self._around.get(id(made_in)))

    def _stack(self, lines: Optional[List[ProgramLine]], around: Optional[Action]) -> Stack:
        found: Stack = []
        left = _MOST
        while lines is not None and left > 0:
            told = _told(lines)[:left]
            if told not in found:
                found.append(told)
                left -= len(told)
            if around is None:
                break
            lines, around = self._lines.get(id(around)), self._around.get(id(around))
        return found


def _told(lines: List[ProgramLine]) -> List[ProgramLine]:
    """The lines, without comprehensions, which stand in the function around them, as far as that is there."""
    own = [line for line in lines if line.function not in _INNER]
    return own if lines[0].function not in _INNER or not own else [lines[0]._replace(function=own[0].function), *own[1:]]


def _each(events: Sequence[Action]) -> Iterator[Any]:
    """Each action, with the one that has handed the body to Twisted in whose run it was. However deep they lie, this takes no room on the stack."""
    left: List[Any] = [(event, None) for event in reversed(events)]
    while left:
        action, around = left.pop()
        yield action, around
        for run in _runs(action):
            left += [(inner, action) for inner in run.actions]


def _runs(action: Action) -> Iterator[Any]:
    for part in action:
        if isinstance(part, Body):
            yield from part.runs
        elif isinstance(part, Steps):
            for body in part.bodies:
                yield from body.runs
