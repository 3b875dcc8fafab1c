"""The facts of a run, as `./deferreds --json` tells them (docs/JSON.md): which line lies where, which object it
means, what is left.
"""

from __future__ import annotations

import json
import re
from typing import Any, Callable, Dict, List, NamedTuple, Optional, Tuple

from .batches import Batches, NotBatches, read_batches
from ..checkout import as_called
from .left import (
    At,
    Hang,
    Left,
    LeftCall,
    LeftDeferred,
    LeftDelivery,
    LeftFailure,
    LeftGetters,
    LeftLoop,
    LeftTask,
    LeftTick,
    LeftTimeout,
    LeftTokens,
    LeftUnhandled,
    LeftValues,
)
from .lines import End, Entry, read_end, read_line
from .nesting import LAST_POSTS, Place

_VERSION = 1

Json = Dict[str, Any]

_PLACES = frozenset(at.value for at in At)

#: an entry as the program writes it, of which only what is used is read: to read all of its JSON takes four times as long
_ENTRY = re.compile(
    r'\{"deferreds":\[[^\]]*\],"depth":(\d+),"due":[a-z0-9]+,"ends":[a-z0-9]+,"event":(null|\d+),"kind":"[a-z ]+","line":("(?:[^"\\]|\\.)*"),'
    r'"number":(\d+),"objects":\[(?:\{"kind":"[a-z]+","name":[^}]*,"number":(null|\d+)\})?\],"section":[a-z0-9]+,"time":\d+,"type":"entry",'
    r'"under":(null|\d+),"value":.*,"weight":\d+\}'
)


class NotFacts(Exception):
    """The text isn't of the form, or of a version that isn't known."""


class Ending(NamedTuple):
    """How the run ended."""

    stopped: bool
    #: the entry that logs what isn't as the script expects, where the run ended so
    unmet: Optional[int]
    weight: int
    limit: int
    #: the batches of its posts, where they are told
    batches: Batches


class Facts:
    """A run as it is printed."""

    def __init__(self) -> None:
        self.entries: List[Entry] = []
        self.places: List[Place] = []
        self.ends: List[End] = []
        #: the entry by which each Deferred was fired, if it was
        self.fired: List[Optional[int]] = []
        self.left: List[Left] = []
        #: None where the text was cut off
        self.ending: Optional[Ending] = None


def read_facts(text: str) -> Facts:
    """Reads JSON Lines, which end at a line feed alone. Kinds that aren't known are passed over."""
    lines, at = text.split("\n"), 0
    try:
        start = json.loads(lines[0])
        if (
            not isinstance(start, dict)
            or start.get("type") != "start"
            or start.get("version") != _VERSION
        ):
            raise NotFacts(as_called(f"it isn't version {_VERSION} of what ./deferreds --json tells"))
        facts = Facts()
        for at in range(1, len(lines) - 1):
            entry = _ENTRY.fullmatch(lines[at])
            if entry is None:
                _take(facts, json.loads(lines[at]))
            else:
                depth, event, line, number, thing, under = entry.groups()
                _add(facts, _text(line), int(number), _or_none(thing), _or_none(event), _or_none(under), int(depth))
    except (ValueError, KeyError, TypeError, IndexError, AttributeError, RecursionError, NotBatches):
        what = f"line {at + 1} of it isn't" if at else "it isn't"
        raise NotFacts(as_called(f"{what} what ./deferreds --json tells")) from None
    return facts


def _take(facts: Facts, told: Json) -> None:
    kind = told["type"]
    if kind == "entry":
        _take_entry(facts, told)
    elif kind == "deferred":
        end = read_end(told["line"])
        if end is None:
            raise ValueError("a line of a Deferred")
        facts.ends.append(end)
        facts.fired.append(None if told["fired_by"] is None else _number(told["fired_by"]))
    elif kind == "left":
        read = _LEFT.get(told["kind"])
        if read is not None:
            facts.left.append(read(told))
    elif kind == "end":
        batches = read_batches(told.get("batches", []))
        unmet = told.get("unmet")
        facts.ending = Ending(
            bool(told["stopped"]),
            None if unmet is None else _number(unmet),
            _number(told["weight"]),
            _number(told["limit"]),
            batches,
        )


def _number(value: object) -> int:
    """A number or a time, which is an integer from 0: a text in its place is no number, whatever it holds."""
    if type(value) is not int or value < 0:
        raise ValueError("a number")
    return value


def _of(told: Json, key: str) -> int:
    """The number of the Deferred or the object under this key."""
    return _number(told[key]["number"])


def _name_of(told: Json) -> str:
    """The name of the object under the key `object`, or an empty one where there is none."""
    return str(told["object"]["name"]) if "object" in told else ""


def _due(told: Json) -> Optional[int]:
    return None if told["due"] is None else _number(told["due"])


def _take_entry(facts: Facts, told: Json) -> None:
    """Adds an entry; one that may be of several objects of a name has the number of none."""
    under, event, objects = told["under"], told["event"], told["objects"]
    thing = objects[0]["number"] if objects else None
    thing, event, under = (None if one is None else _number(one) for one in (thing, event, under))
    _add(facts, told["line"], told["number"], thing, event, under, _number(told["depth"]))


def _text(written: str) -> str:
    """A text as JSON has it."""
    text: str = json.loads(written) if "\\" in written else written[1:-1]
    return text


def _or_none(written: Optional[str]) -> Optional[int]:
    """A number as JSON has it, or none."""
    return None if written is None or written == "null" else int(written)


def _add(facts: Facts, line: str, number: int, thing: Optional[int], event: Optional[int], under: Optional[int], depth: int) -> None:
    row = len(facts.entries)
    if number != row or (under is not None and under >= row):
        raise ValueError("the number of an entry")
    facts.entries.append(read_line(row, line, -1 if thing is None else thing))
    facts.places.append(Place(LAST_POSTS if event is None else event, under, depth))


def _hang(told: Json) -> Hang:
    if told["at"] == At.TIMEOUT.value:
        return Hang(At.TIMEOUT, _number(told["due"]))
    return Hang(At(told["at"]), _of(told, "deferred" if "deferred" in told else "object"))


def _numbers(told: List[Json]) -> Tuple[int, ...]:
    return tuple(_number(one["number"]) for one in told)


def _deferred(told: Json) -> Left:
    hangs = tuple(_hang(hang) for hang in told["hangs"] if hang["at"] in _PLACES)
    state = told["state"]
    if state not in ("unfired", "waiting", "fired"):
        raise ValueError("a state")
    return LeftDeferred(
        _of(told, "deferred"), state, _number(told["pauses"]), bool(told["running"]), hangs
    )


_LEFT: Dict[str, Callable[[Json], Left]] = {
    "deferred": _deferred,
    "failure": lambda told: LeftFailure(_of(told, "deferred")),
    "call": lambda told: LeftCall(_of(told, "object"), _number(told["due"])),
    "tick": lambda told: LeftTick(_number(told["due"]), _name_of(told)),
    "delivery": lambda told: LeftDelivery(
        _of(told, "object"), _of(told, "deferred"), _number(told["due"])
    ),
    "timeout": lambda told: LeftTimeout(_of(told, "deferred"), _number(told["due"])),
    "loop": lambda told: LeftLoop(
        _of(told, "object"), _of(told, "deferred"), _due(told), _numbers(told["waits_for"])
    ),
    "task": lambda told: LeftTask(_of(told, "object"), int(told["pauses"]), _numbers(told["waits_for"])),
    "tokens": lambda told: LeftTokens(
        _of(told, "object"), _number(told["given"]), _number(told["tokens"]), _numbers(told["waiting"])
    ),
    "getters": lambda told: LeftGetters(_of(told, "object"), _numbers(told["waiting"])),
    "values": lambda told: LeftValues(_of(told, "object"), len(told["values"])),
    "unhandled": lambda told: LeftUnhandled(_number(told["entry"])),
}
