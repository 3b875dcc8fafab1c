"""What became of each Deferred in every order of a script's posts, or in a sample of them: what `./deferreds --json --orders` prints
(docs/JSON.md), read."""

from __future__ import annotations

import json
from typing import Any, Dict, Iterator, List, NamedTuple, Optional, Tuple

from .batches import Batches, NotBatches, read_batches
from .sizes import several

Json = Dict[str, Any]


class NotOrders(Exception):
    """The text isn't what `./deferreds --json --orders` prints."""


class Way(NamedTuple):
    """A way in which a Deferred ended: its state, in how many orders, and the batches of the first of these."""

    state: str
    orders: int
    first: Batches


class Came(NamedTuple):
    """An outcome, or a stop at the limit of the journal: in how many orders it came, and the batches of the first of these."""

    orders: int
    first: Batches


class Endings(NamedTuple):
    """All ways in which a Deferred ended, which is known by its name and its place among those of the name."""

    name: str
    place: int
    ways: Tuple[Way, ...]

    @property
    def label(self) -> str:
        """NAME PLACE."""
        return f"{self.name} {self.place}"

    @property
    def orders(self) -> int:
        """In how many orders it is made."""
        return sum(way.orders for way in self.ways)


class Orders(NamedTuple):
    """What became of each Deferred over all orders that ran."""

    #: how many orders there are, and how many of them ran
    total: int
    ran: int
    #: whether those that ran were drawn
    is_sample: bool
    endings: Tuple[Endings, ...]
    #: the first one is outcome 1
    outcomes: Tuple[Came, ...]
    #: the orders in which the run stopped at the limit of its journal, where there are any
    stops: Optional[Came] = None
    #: those in which a Deferred wasn't as the script expects
    unmet: Optional[Came] = None

    def unmade(self, one: Endings) -> int:
        """In how many orders a Deferred isn't made."""
        return self.ran - one.orders

    def differs(self, one: Endings) -> bool:
        """Whether what becomes of a Deferred hangs on the order."""
        return len(one.ways) > 1 or self.unmade(one) > 0

    @property
    def firsts(self) -> List[Batches]:
        """The orders in which an outcome came first, a Deferred first ended in a way, or a run first stopped or was first unmet, each once."""
        return list(dict.fromkeys([*(one.first for one in self.outcomes), *self._chosen]))

    @property
    def _chosen(self) -> List[Batches]:
        """Those of the ways, of the stop, and of what wasn't as expected."""
        ways = [way.first for one in self.endings for way in one.ways]
        return [*ways, *(came.first for came in (self.stops, self.unmet) if came is not None)]

    def charted(self, most: int) -> List[Batches]:
        """Those that are shown where there is room for so many: before any other those of the ways, and of the stop."""
        kept = list(dict.fromkeys([*self._chosen, *self.firsts]))[:most]
        return [first for first in self.firsts if first in kept]

    @property
    def noun(self) -> str:
        """What an order that ran is called."""
        return "sampled order" if self.is_sample else "order"

    @property
    def counts(self) -> str:
        """How many orders and outcomes there are, in words."""
        orders = several(self.total, "order", "orders")
        outcomes = several(len(self.outcomes), "outcome", "outcomes")
        return f"a sample of {self.ran} of {orders}, {outcomes}" if self.is_sample else f"{orders}, {outcomes}"


def read_orders(text: str) -> Orders:
    """Reads what is printed: JSON Lines, which end at a line feed alone. Kinds that aren't known are passed over. Raises NotOrders."""
    lines = text.split("\n")
    try:
        if lines.pop():
            raise ValueError("a line that was cut off")
        first, *counted, last = map(json.loads, lines)
        return _orders(first, counted, last)
    except (ValueError, KeyError, TypeError, AttributeError, RecursionError, NotBatches):
        raise NotOrders from None


def _orders(first: Json, counted: List[Json], last: Json) -> Orders:
    sample = None if first["sample"] is None else _number(first["sample"])
    outcomes = tuple(_came(told) for told in counted if told["type"] == "outcome")
    stops, unmet = _came_at_all(counted, "stopped"), _came_at_all(counted, "unmet")
    orders = Orders(
        _number(first["orders"]), _number(last["orders"]), sample is not None, tuple(_endings(counted)), outcomes, stops, unmet
    )
    if (first["type"], last["type"]) != ("orders", "end") or orders.ran != (orders.total if sample is None else sample):
        raise ValueError("the number of orders")
    if (last["outcomes"], last["stopped"]) != (len(outcomes), stops.orders if stops else 0):
        raise ValueError("the number of outcomes")
    if last.get("unmet", 0) != (unmet.orders if unmet else 0):
        raise ValueError("in how many orders a Deferred wasn't as expected")
    return orders


def _came_at_all(counted: List[Json], kind: str) -> Optional[Came]:
    """In which orders something came of which there is one line, or none."""
    return next((_came(told) for told in counted if told["type"] == kind), None)


def _endings(counted: List[Json]) -> Iterator[Endings]:
    """The Deferreds, in the sequence in which they come, each with its ways."""
    found: Dict[Tuple[str, int], List[Way]] = {}
    for told in counted:
        if told["type"] == "deferred":
            orders, first = _came(told)
            found.setdefault(_label(told["deferred"]), []).append(Way(_state(told), orders, first))
    for (name, place), ways in found.items():
        yield Endings(name, place, tuple(ways))


def _came(told: Json) -> Came:
    return Came(_number(told["count"]), read_batches(told["batches"]))


def _label(told: Json) -> Tuple[str, int]:
    """The name of a Deferred, or a dash, and its place."""
    name = told["name"]
    if name is not None and not isinstance(name, str):
        raise ValueError("a name")
    return "-" if name is None else name, _number(told["place"])


def _state(told: Json) -> str:
    """A state, as a line of `./deferreds --orders` has it."""
    paused = "paused " if told["paused"] else ""
    state, value = told["state"], told["value"]
    if state == "unfired":
        return f"{paused}unfired"
    if state == "waiting":
        return f"{paused}waiting {_awaited(told['waits_for'])}"
    if state == "ok":
        return f"{paused}ok {_json(value)}"
    if state == "fail":
        return f"{paused}fail {_failure(value)}"
    raise ValueError("a state")


def _awaited(told: Optional[Json]) -> str:
    if told is None:
        return "-"
    name, place = _label(told)
    return f"{name} {place}"


def _failure(told: Json) -> str:
    """A failure as `CLASS "MESSAGE"`, and what a FirstError holds."""
    more = f" at {_number(told['index'])} of {_failure(told['sub'])}" if "sub" in told else ""
    return f"{told['fail']} {_json(told['message'])}{more}"


def _json(value: object) -> str:
    return json.dumps(value, separators=(",", ":"), ensure_ascii=False)


def _number(value: object) -> int:
    if type(value) is not int or value < 0:
        raise ValueError("a number")
    return value
