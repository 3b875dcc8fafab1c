"""How long each Deferred was unfired, waited and was paused, and how many of its sides ran.

Only `advance` has time go on, and no side of a Deferred advances. So a side takes no time of the virtual clock.
"""

from __future__ import annotations

from typing import Dict, List, NamedTuple

from .records import Record, Row, State


class Spent(NamedTuple):
    """How many ticks a Deferred was what, up to the end of the run, and how many sides of it ran."""

    unfired: int
    waited: int
    paused: int
    sides: int


class Durations:
    """Works out what the Deferreds of a run have spent."""

    def __init__(self, rows: List[Row]) -> None:
        self._rows = rows
        self._known: Dict[int, Spent] = {}

    def time(self, row: int) -> int:
        """When the change of a row came; after the last one, when the run was over."""
        return self._rows[min(row, len(self._rows) - 1)].time if self._rows else 0

    def between(self, row: int, end: int) -> int:
        """How many ticks lie between two rows."""
        return self.time(end) - self.time(row)

    def of(self, record: Record) -> Spent:
        """What the Deferred has spent; asked for when the run is over."""
        if record.number not in self._known:
            self._known[record.number] = self._worked_out(record)
        return self._known[record.number]

    def _worked_out(self, record: Record) -> Spent:
        spent = {State.UNFIRED: 0, State.WAIT: 0}
        paused = sides = 0
        spans = record.spans
        for place, (start, look) in enumerate(spans):
            stop = spans[place + 1][0] if place + 1 < len(spans) else len(self._rows)
            ticks = self.between(start, stop)
            if look.state in spent:
                spent[look.state] += ticks
            paused += ticks if look.paused else 0
            sides += look.state is State.RUN and (place == 0 or spans[place - 1][1].state is not State.RUN)
        return Spent(spent[State.UNFIRED], spent[State.WAIT], paused, sides)
