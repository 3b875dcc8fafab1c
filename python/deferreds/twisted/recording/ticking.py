"""How many steps the ticks of a Cooperator had, as a script says it: a number, and where it changes."""

from __future__ import annotations

from typing import Dict, List, NamedTuple, Optional, Sequence

from .. import grammar
from ..instruments.tasks import Tick
from ..telling import Action, Advance


class Uneven(Exception):
    """No numbers give the steps of the ticks."""


class Change(NamedTuple):
    """From an event on, each tick has at most so many steps."""

    event: Optional[Action]
    units: int


class _Stretch:
    """Ticks in a row for which one number will do."""

    def __init__(self, first: Tick) -> None:
        self.event = first.event
        #: the number, once a tick has used up its steps; and the least that it may be
        self._exact: Optional[int] = None
        self._least = 0

    def takes(self, tick: Tick, looked: Optional[bool]) -> bool:
        """Takes a tick that comes next, if one number will do for that, too. Gives whether it does.

        `looked`: whether the tick, after which no task was left, must have looked for the next one, or must not; None: it may have.
        """
        least = max(self._least, tick.steps + (looked is True))
        exact = tick.steps if tick.left or looked is False else self._exact
        if self._exact not in (None, exact) or (exact is not None and exact < least):
            return False
        self._exact, self._least = exact, least
        return True

    @property
    def units(self) -> int:
        """The number: if any from the least on will do, the largest that a script may have. Raises Uneven, if a script can't have it."""
        units = grammar.UNITS[-1] if self._exact is None else self._exact
        if units not in grammar.UNITS or self._least > units:
            raise Uneven
        return units


def changes_of(ticks: Sequence[Tick]) -> List[Change]:
    """What number the ticks have at first, and where it changes. Raises Uneven, if no numbers give what happened."""
    stretches: List[_Stretch] = []
    before: Optional[Action] = None
    for tick, looked in zip(ticks, [*(tick.before_looked for tick in ticks[1:]), None]):
        if not stretches or not stretches[-1].takes(tick, looked):
            if stretches and tick.event is before:
                raise Uneven
            stretches.append(_Stretch(tick))
            stretches[-1].takes(tick, looked)
        before = tick.event
    return [Change(stretch.event, stretch.units) for stretch in stretches]


def places_of(changes: Sequence[Change], events: Sequence[Action]) -> Dict[int, int]:
    """Before which of the recorded events the number changes, and to what, by their places among these.

    An advance that isn't recorded is a part of the recorded one before it. Raises Uneven, if two changes are in one.
    """
    units = {id(change.event): change.units for change in changes}
    places: Dict[int, int] = {}
    told = -1
    for event in events:
        told += not isinstance(event, Advance) or event.is_told
        if id(event) in units:
            if told in places:
                raise Uneven
            places[told] = units[id(event)]
    return places
