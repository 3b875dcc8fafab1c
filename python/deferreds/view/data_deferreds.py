"""The data of the Deferreds in a page: how they ended, what they were from when to when, and their steps."""

from __future__ import annotations

import json
from typing import Any, Callable, Dict, List, Sequence

from .phrases import Phrase
from .records import Ended, Record, State, ended
from .run import Run
from .texts import shortened, visible

#: what is written of each Deferred as an array, in this order
FIELDS = (
    #: the value or the failure; the Deferred for which it waits, or -1
    "value",
    "waits",
    #: the row in which it was fired, or -1, and by what, as a phrase
    "fired",
    "by",
    #: for how many ticks it was unfired, waited and was paused, how many of its callbacks ran, and how many of its pairs wait
    "spent",
    #: what it was from when on: rows, and after each twice the place in `State`, and 1 more if it was paused
    "spans",
    #: its steps (`Stories.written`)
    "steps",
)

_MOST_VALUE, _MOST_BY = 200, 60
_ENDS, _STATES = list(Ended), list(State)
#: how many characters of an outcome come before its value
_BEFORE = {Ended.OK: 3, Ended.FAIL: 5, Ended.PAUSED: 7}


def columns_of(run: Run, records: Sequence[Record], said: Callable[[Phrase, int], List[Any]]) -> Dict[str, Any]:
    """The data of Deferreds, with phrases as `said` makes them: a column for what is asked of all of them, and the rest as texts."""
    return {
        "numbers": [record.number for record in records],
        "ends": [_ENDS.index(ended(record.end)) for record in records],
        "made": [record.row for record in records],
        "last": [record.last for record in records],
        "names": "\n".join(", ".join(map(visible, record.names)) for record in records),
        "written": "\n".join(json.dumps(_fields(run, record, said), ensure_ascii=False, separators=(",", ":")) for record in records),
    }


def _fields(run: Run, record: Record, said: Callable[[Phrase, int], List[Any]]) -> List[Any]:
    end = ended(record.end)
    value = record.end[_BEFORE[end] :] if end in _BEFORE else ""
    return [
        visible(shortened(value, _MOST_VALUE)),
        record.waits if record.waits is not None else -1,
        record.fired if record.fired is not None else -1,
        said(record.fired_by, _MOST_BY),
        [*run.durations.of(record), record.waiting_pairs],
        _spans(record),
        run.stories.written(record.number, run.durations),
    ]


def _spans(record: Record) -> List[int]:
    return [value for row, look in record.spans for value in (row, 2 * _STATES.index(look.state) + look.paused)]
