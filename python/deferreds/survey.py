"""What became of each Deferred in every order of a script's posts, or in a sample of them: what `--orders` is held against, and
`--json --orders`.

Each order is given by its batches, and by what `--batches` prints of it, with `--json`, too, where the survey is written as JSON. From one
order to the next a Deferred is known by its name and its place: the how-manieth it is of that name, in order of making.
"""

from __future__ import annotations

import json
import re
from typing import Dict, FrozenSet, Iterable, List, NamedTuple, Optional, Sequence

from .bounds import MOST_ORDERS
from .orders import Order
from .sampling import MOST_DRAWN_FROM

#: the statuses: every order has the same outcome, there are several, there are more orders than may run, and a Deferred isn't as
#: the script expects in some
ONE_OUTCOME, SEVERAL_OUTCOMES, TOO_MANY, UNMET = 0, 6, 7, 8
#: that of a run which stopped at the limit of its journal
_AT_LIMIT = 1
#: what is said where a sample is asked for of more orders than are counted
NO_SAMPLE = "more orders than 64 bits count: no sample is drawn"

_OUTCOME = re.compile(r"#\d+ (\S+) (.*)")
_WAITING = re.compile(r"(paused )?waiting #(\d+)")

#: the keys of an object of JSON, and what each shows
Shown = Dict[str, object]

#: what a survey shows of a Deferred as its run does
_KEPT = ("state", "type", "value")


class Run(NamedTuple):
    """A run of a script in one order: its batches, what was printed, and its status."""

    batches: Order
    output: str
    status: int = 0
    #: what was printed of it as JSON, where the survey is written as JSON
    told: str = ""


class Line(NamedTuple):
    """What became of a Deferred: NAME PLACE, and its state."""

    deferred: str
    state: str

    def __str__(self) -> str:
        return f"{self.deferred} {self.state}"


class Tally(NamedTuple):
    """In how many orders something came, and the batches of the first of them, with what JSON shows of it there."""

    orders: int
    first: Order
    shown: Shown

    @property
    def one_more(self) -> Tally:
        """The same, where it came in one order more."""
        return self._replace(orders=self.orders + 1)


def lines_of(output: str) -> List[Line]:
    """Returns a line for each Deferred of a run, in order of making."""
    found = [_OUTCOME.fullmatch(line) for line in output.split("\n") if line.startswith("#")]
    outcomes = [outcome.groups() for outcome in found if outcome is not None]
    labels = labels_of([name for name, _ in outcomes])
    return [Line(label, state_of(state, labels)) for label, (_, state) in zip(labels, outcomes)]


def labels_of(names: List[str]) -> List[str]:
    """Returns NAME PLACE of each Deferred, where these are the names of all, in order of making."""
    return [f"{name} {names[: place + 1].count(name)}" for place, name in enumerate(names)]


def state_of(text: str, labels: List[str]) -> str:
    """Returns a state with NAME PLACE, or a dash, in the place of the number of a Deferred that is waited for."""
    waiting = _WAITING.fullmatch(text)
    if waiting is None:
        return text
    number = int(waiting[2])
    return f"{waiting[1] or ''}waiting {labels[number] if number < len(labels) else '-'}"


def shown_of(told: str, lines: Sequence[Line]) -> List[Shown]:
    """Returns what JSON shows of each Deferred of a run, where this was printed of it as JSON, and these are its lines."""
    deferreds = [keys for keys in map(json.loads, told.split("\n")[:-1]) if keys["type"] == "deferred"]
    names: List[Shown] = [{"name": keys["name"], "place": place_in(line)} for keys, line in zip(deferreds, lines)]
    return [
        {
            **{key: keys[key] for key in _KEPT},
            "deferred": name,
            "paused": keys["pauses"] > 0,
            "waits_for": names[keys["waits_for"]["number"]] if keys["waits_for"] else None,
        }
        for keys, name in zip(deferreds, names)
    ]


def place_in(line: Line) -> int:
    """Returns the PLACE of a line."""
    return int(line.deferred.rsplit(" ", 1)[1])


class Survey:
    """Gathers the runs of a script, order by order: of every order, or of a sample, drawn from so many orders."""

    def __init__(self, drawn_from: Optional[int] = None) -> None:
        self._drawn_from = drawn_from
        self._orders = 0
        #: of each Deferred, and of each of its states, the tally; both in order of first meeting
        self._tallies: Dict[str, Dict[str, Tally]] = {}
        #: of each outcome
        self._outcomes: Dict[FrozenSet[Line], Tally] = {}
        #: of the stops at the limit of the journal, and of the runs in which a Deferred wasn't as expected, where there are any
        self._stops: Optional[Tally] = None
        self._unmet: Optional[Tally] = None

    def add(self, run: Run) -> None:
        """Adds a run, which is the next in the sequence of orders."""
        lines = lines_of(run.output)
        shown = shown_of(run.told, lines) if run.told else [{} for _ in lines]
        for line, keys in zip(lines, shown):
            states = self._tallies.setdefault(line.deferred, {})
            states[line.state] = states.get(line.state, Tally(0, run.batches, keys)).one_more
        self._end(run, frozenset(lines))
        self._orders += 1

    def _end(self, run: Run, outcome: FrozenSet[Line]) -> None:
        keys: Shown = {"type": "outcome", "outcome": len(self._outcomes) + 1}
        self._outcomes[outcome] = self._outcomes.get(outcome, Tally(0, run.batches, keys)).one_more
        if run.status == _AT_LIMIT:
            self._stops = (self._stops or Tally(0, run.batches, {"type": "stopped"})).one_more
        if run.status == UNMET:
            self._unmet = (self._unmet or Tally(0, run.batches, {"type": "unmet"})).one_more

    @property
    def status(self) -> int:
        """The status with which `--orders` ends."""
        if self._unmet is not None:
            return UNMET
        return ONE_OUTCOME if len(self._outcomes) == 1 else SEVERAL_OUTCOMES

    @property
    def _sample(self) -> Optional[int]:
        """How many orders the sample has, where these are one."""
        return None if self._drawn_from is None else self._orders

    @property
    def _total(self) -> int:
        """How many orders the script has."""
        return self._orders if self._drawn_from is None else self._drawn_from

    @property
    def _noun(self) -> str:
        return "order" if self._drawn_from is None else "sampled order"

    def text(self) -> str:
        """Returns what `--orders` prints."""
        sample = "" if self._sample is None else f", a sample of {self._sample}"
        first = f"{counted(self._total, 'order')}{sample}"
        last = f"{counted(self._orders, self._noun)}, {counted(len(self._outcomes), 'outcome')}"
        return "".join(f"{line}\n" for line in [first, *self._told(), last])

    def _told(self) -> List[str]:
        ways = [
            self._tally_text(f"{deferred} {state}", tally)
            for deferred, states in self._tallies.items()
            for state, tally in states.items()
        ]
        outcomes = [self._tally_text(f"outcome {number}", tally) for number, tally in enumerate(self._outcomes.values(), 1)]
        stops = [self._tally_text("stopped at the limit of the journal", self._stops)] if self._stops else []
        unmet = [self._tally_text("unmet", self._unmet)] if self._unmet else []
        return [*ways, *outcomes, *stops, *unmet]

    def _tally_text(self, what: str, tally: Tally) -> str:
        """Returns the line that says in how many orders this came."""
        return f"{what} in {counted(tally.orders, self._noun)}, first {batches_text(tally.first)}"

    def json_lines(self) -> str:
        """Returns what `--json --orders` prints, where each run was added with what was printed of it as JSON."""
        ways = [tally for states in self._tallies.values() for tally in states.values()]
        tallies = [*ways, *self._outcomes.values(), *(tally for tally in (self._stops, self._unmet) if tally is not None)]
        first: Shown = {"type": "orders", "orders": self._total}
        last: Shown = {
            "type": "end",
            "orders": self._orders,
            "outcomes": len(self._outcomes),
            "stopped": self._stops.orders if self._stops else 0,
            "unmet": self._unmet.orders if self._unmet else 0,
        }
        lines = [first, *map(tally_keys, tallies), last]
        return "".join(f"{json_text({**line, 'sample': self._sample})}\n" for line in lines)


def survey_of(runs: Iterable[Run], drawn_from: Optional[int] = None) -> Survey:
    """Gathers these runs, which are those of every order, in sequence, or of a sample, drawn from so many orders."""
    survey = Survey(drawn_from)
    for run in runs:
        survey.add(run)
    return survey


def tally_keys(tally: Tally) -> Shown:
    """Returns the keys of the line of JSON that says in how many orders something came."""
    return {**tally.shown, "batches": tally.first, "count": tally.orders}


def json_text(keys: Shown) -> str:
    """Returns a line of JSON: the keys in order, with no spaces."""
    return json.dumps(keys, separators=(",", ":"), sort_keys=True, ensure_ascii=False)


def batches_text(order: Order) -> str:
    """Returns batches as one word, which `--batches` takes."""
    return json.dumps(order, separators=(",", ":"))


def counted(count: int, noun: str) -> str:
    """Returns a number with its noun: `1 order`, `2 orders`."""
    return f"{count} {noun}" if count == 1 else f"{count} {noun}s"


def too_many(orders: int, most: int) -> str:
    """Returns what is said of so many orders, where no more than `most` may run."""
    if orders > MOST_DRAWN_FROM:
        return f"more orders than 64 bits count, and --most allows {MOST_ORDERS} at most"
    more = f"{orders} {'order is' if orders == 1 else 'orders are'} more than the {most} that may run"
    if orders <= MOST_ORDERS:
        return f"{more}; --most {orders} allows them, --sample K --seed S draws some"
    return f"{more}, and --most allows {MOST_ORDERS} at most; --sample K --seed S draws some"
