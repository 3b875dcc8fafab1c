"""The Deferreds on an axis in proportion to time: which stand there, and the times along it. `axis.js` draws it."""

from __future__ import annotations

from typing import Any, Dict, Iterator, List, Optional, Tuple

from .records import Record
from .run import Run
from .texts import Html
from .units import time_of

#: how many Deferreds stand on the axis: where there are more, those that took longest
MOST = 300

_MOST_MARKS = 8


class Axis:
    """The axis of a run; it has nothing where no time goes on."""

    def __init__(self, run: Run) -> None:
        self._run = run
        self._end = run.fold.world.now
        #: the numbers of the Deferreds on it, in order
        self.numbers = [record.number for record in self._chosen()] if self._is_there else []

    @property
    def _is_there(self) -> bool:
        """Whether time goes on."""
        return self._end > 0 and len(self._run.fold.records) > 0

    def _chosen(self) -> List[Record]:
        records = list(self._run.fold.records.values())
        if len(records) <= MOST:
            return records
        records.sort(key=lambda record: -sum(self._run.durations.of(record)[:2]))
        return sorted(records[:MOST], key=lambda record: record.number)

    def pieces(self) -> Iterator[Html]:
        """What opens, and holds the axis then."""
        if not self._is_there:
            return
        total = len(self._run.fold.records)
        few = f": the {MOST} of {total} Deferreds that were unfired or waited longest" if MOST < total else ""
        yield Html(f"<details id=time hidden><summary>Deferreds in proportion to time{few}</summary></details>")

    @property
    def form(self) -> Optional[Dict[str, Any]]:
        """What it is drawn from."""
        return {"end": self._end, "marks": list(self._marks()), "numbers": self.numbers} if self._is_there else None

    def _marks(self) -> Iterator[Tuple[int, str]]:
        """Times along the axis: in seconds, if the run was recorded."""
        step = _round(-(-self._end // _MOST_MARKS))
        for time in range(0, self._end + 1, step):
            yield time, time_of(time, self._run.tick)


def _round(step: int) -> int:
    """The step itself where it is 1, 2 or 5 with noughts, else the next one that is."""
    power = int("1".ljust(len(str(step)), "0"))
    return next(one * power for one in (1, 2, 5, 10) if one * power >= step)
