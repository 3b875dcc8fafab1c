"""Values of a queue that weren't put back, where a queue is a pool: who gets a value puts it back when it is done.

A queue is taken for a pool if at least two bodies put back what they had got, and at least as many as didn't.
"""

from __future__ import annotations

from typing import Dict, List, NamedTuple, Optional

from .bodies import Bodies
from .fold import Fold
from .records import Made, Record
from .world import Queue

_FEWEST_BACK = 2


class Got(NamedTuple):
    """A body that got a value: by which Deferred, and the row in which it put the value back, if it did."""

    deferred: int
    value: str
    body: int
    back: Optional[int]


class Pool(NamedTuple):
    """A pool: whose value wasn't put back by anybody though the body has ended, and who put one back."""

    lost: List[Got]
    back: List[Got]


def pool_of(fold: Fold, bodies: Bodies, queue: Queue) -> Optional[Pool]:
    """What became of the values of a queue, if it is a pool; else None."""
    if queue.name in fold.world.queues.ambiguous:
        return None
    got = _got(fold, bodies, queue)
    lost = [one for one in got if one.back is None and fold.records[one.body].fired is not None]
    back = [one for one in got if one.back is not None and bodies.acting.get(one.back) == one.body]
    return Pool(lost, back) if len(back) >= max(_FEWEST_BACK, len(lost)) else None


def getters(fold: Fold, bodies: Bodies, queue: Queue) -> Dict[int, List[str]]:
    """Which values of a queue each body got, the first one first."""
    found: Dict[int, List[str]] = {}
    for record in _fired(fold, queue):
        body = bodies.acting.get(record.row)
        if body is not None:
            found.setdefault(body, []).append(_value(fold, record) or "")
    return found


def _fired(fold: Fold, queue: Queue) -> List[Record]:
    """The Deferreds that got a value of a queue, the first one first."""
    made = [record for record in fold.records.values() if record.made is Made.GET and record.of == queue.number]
    return sorted((record for record in made if _value(fold, record) is not None), key=lambda record: record.fired or 0)


def _value(fold: Fold, record: Record) -> Optional[str]:
    """The value that a Deferred was fired with."""
    outcome = fold.rows[record.fired].entry.outcome if record.fired is not None else None
    return outcome.text.removeprefix("ok ") if outcome is not None and not outcome.is_failure else None


def _got(fold: Fold, bodies: Bodies, queue: Queue) -> List[Got]:
    """Which body got which value, and where the value was put again after that."""
    puts: Dict[str, List[int]] = {}
    for row in fold.rows:
        if row.entry.word == "put" and row.entry.name == queue.name:
            puts.setdefault(row.entry.line[row.entry.head :], []).append(row.place)
    found: List[Got] = []
    for record in _fired(fold, queue):
        value, body = _value(fold, record) or "", bodies.acting.get(record.row)
        again = next((place for place in puts.get(value, []) if place > (record.fired or 0)), None)
        if again is not None:
            puts[value].remove(again)
        if body is not None:
            found.append(Got(record.number, value, body, again))
    return found
