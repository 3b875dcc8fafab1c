"""Gives the turns of a loop bodies of their own, if they didn't all do the same.

From version 3 on a script may have an array of bodies for a loop: each turn runs the next one, and when none is left, the last one again.
"""

from __future__ import annotations

from typing import Any, List, Sequence

from ..instruments.inner import Inner
from ..telling import Action
from .alike import Alike
from .bodies import Body, Run, Turns


def tell_apart(action: Action, parts: List[Any], preceding: int, alike: Alike) -> bool:
    """Has an action whose body had different runs have a body for each, if it starts a loop; whether it does. The runs at the end that
    are the same have one body.

    `parts` are the parts of lines, where a body stands before each of its runs, and `preceding` says how many of them are those of an
    earlier part of the run.
    """
    body, inner = action[-1], action.inner_of
    if action[0] != "loop" or not isinstance(body, Body) or not isinstance(inner, Inner):
        return False
    runs = body.runs
    turns = Turns(body.depth)
    last = _first_of_last(runs, alike)
    turns.bodies = [_with_runs(body, [run]) for run in runs[:last]]
    turns.bodies.append(_with_runs(body, runs[last:]))
    for turn in inner.turns:
        place = preceding + turn.began_at
        if turn.body is body and turn.number < len(runs) and parts[place] is body:
            parts[place] = turns.bodies[min(turn.number, last)]
    action[-1] = turns
    return True


def _first_of_last(runs: Sequence[Run], alike: Alike) -> int:
    """From which run on, at the end, all are the same."""
    last = len(runs) - 1
    first = last
    while first > 0 and alike.would_be_same(runs[first - 1], runs[first : first + 1]):
        first -= 1
    return first if alike.would_be_same(runs[first], runs[first + 1 :]) else last


def _with_runs(body: Body, runs: List[Run]) -> Body:
    """A body like this one, which has these of its runs."""
    made = Body(body.kind, body.depth)
    made.runs = runs
    return made
