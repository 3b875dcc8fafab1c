"""Inline bodies and coroutines that went on after a cancel: their `except` took the CancelledError for something else, it seems."""

from __future__ import annotations

from typing import Dict, List, NamedTuple

from .fold import Fold
from .records import Record


class WentOn(NamedTuple):
    """A body that was cancelled: the row of the cancel, and the rows in which it awaited something after that."""

    body: Record
    cancel: int
    awaited: List[int]


def went_on(fold: Fold) -> List[WentOn]:
    """The bodies that awaited something new after they were cancelled."""
    cancelled: Dict[int, WentOn] = {}
    for row in fold.rows:
        number = row.entry.deferred
        if row.entry.word == "cancel" and number not in cancelled and _is_open_body(fold.records[number], row.place):
            cancelled[number] = WentOn(fold.records[number], row.place, [])
        elif row.entry.word == "await" and number in cancelled:
            cancelled[number].awaited.append(row.place)
    return [one for one in cancelled.values() if one.awaited]


def _is_open_body(record: Record, row: int) -> bool:
    """Whether a Deferred is that of a body, and isn't fired yet in this row."""
    return record.awaits is not None and (record.fired is None or record.fired > row)
