"""The brackets of the chart: from what schedules something to the row in which it runs or is cancelled, or to the end."""

from __future__ import annotations

from typing import Iterator, List, Optional

from .fold import Fold
from .left import Left, LeftCall, LeftDelivery, LeftLoop, LeftTick, LeftTimeout
from .records import Bracket, BracketKind

_ORDER = list(BracketKind)


def brackets_of(fold: Fold, left: List[Left]) -> List[Bracket]:
    """Those of what came first, then of what was cancelled, then of what is left."""
    every = [*fold.brackets, *_open(fold, left)]
    return sorted(every, key=lambda one: (_ORDER.index(one.kind), one.start))


def _open(fold: Fold, left: List[Left]) -> Iterator[Bracket]:
    """What was scheduled and is left."""
    timers = {(timer.deferred, timer.due): timer.row for timer in fold.world.timers}
    for one in left:
        row = timers.get((one.deferred, one.due)) if isinstance(one, LeftTimeout) else _scheduled(fold, one)
        if row is not None:
            yield Bracket(row, None, BracketKind.LEFT)


def _scheduled(fold: Fold, one: Left) -> Optional[int]:
    """The row in which something was scheduled that is left."""
    world = fold.world
    if isinstance(one, LeftCall):
        call = world.calls.at(one.number)
        return call.row if call is not None else None
    if isinstance(one, LeftTick):
        tick = world.due_ticks.get(one.cooperator)
        return tick.row if tick is not None else None
    if isinstance(one, LeftDelivery):
        return world.jobs[one.job].later if one.job in world.jobs else None
    if isinstance(one, LeftLoop) and one.due is not None:
        loop = world.loops.at(one.number)
        return loop.later if loop is not None else None
    return None
