"""What `--json` prints of a run, compared with what `./deferreds` prints of it."""

from __future__ import annotations

import json
import subprocess
from dataclasses import dataclass
from typing import Any, Dict, Iterator, List, Optional, Sequence

from ..program import NotRun
from ..repeats import written_out
from ..view.facts import NotFacts, read_facts

from .agreeing import Told, agreement

#: the status of a run that ended since a Deferred wasn't as the script expects
_UNMET = 8

#: the keys of each kind of line, by docs/JSON.md
KEYS: Dict[str, Sequence[str]] = {
    "start": ("type", "version"),
    "entry": (
        "deferreds",
        "depth",
        "due",
        "ends",
        "event",
        "kind",
        "line",
        "number",
        "objects",
        "section",
        "time",
        "type",
        "under",
        "value",
        "weight",
    ),
    "deferred": (
        "fired_by",
        "line",
        "name",
        "number",
        "pauses",
        "state",
        "type",
        "value",
        "waits_for",
    ),
    "end": ("batches", "jobs", "limit", "stopped", "time", "type", "unmet", "weight"),
}

#: the keys of what is left, beside `kind` and `type`
LEFT_KEYS: Dict[str, Sequence[str]] = {
    "deferred": ("deferred", "hangs", "pauses", "running", "state"),
    "failure": ("deferred", "value"),
    "call": ("due", "object"),
    "tick": ("due",),
    "delivery": ("deferred", "due", "object"),
    "timeout": ("deferred", "due"),
    "loop": ("deferred", "due", "object", "waits_for"),
    "task": ("bodies", "object", "pauses", "waits_for"),
    "tokens": ("given", "object", "tokens", "waiting"),
    "getters": ("object", "waiting"),
    "values": ("object", "values"),
    "unhandled": ("entry", "value"),
}

#: those that may be there beside them
_MAY_HAVE: Dict[str, Sequence[str]] = {"tick": ("object",)}

_ORDER = ("start", "entry", "deferred", "left", "end")
_SECONDS = 60
#: how much of a script is shown on which the program doesn't end
_SHOWN = 200
#: how many differences of a run are shown
_MOST_DIFFERENCES = 5


class Wrong(Exception):
    """What is printed isn't what it has to be."""


@dataclass(frozen=True)
class Ran:
    """How a run ended, and what it wrote."""

    status: int
    output: str
    errors: str


def run(command: Sequence[str], script: str) -> Ran:
    """Runs a command on a script. Raises NotRun where it doesn't end in a minute."""
    try:
        ran = subprocess.run(
            list(command), input=script.encode(), capture_output=True, timeout=_SECONDS, check=False
        )
    except subprocess.TimeoutExpired:
        raise NotRun(f"{' '.join(command)} hasn't ended after {_SECONDS} s on {script[:_SHOWN]}") from None
    return Ran(ran.returncode, ran.stdout.decode(), ran.stderr.decode())


def read_lines(output: str) -> List[Told]:
    """The objects of JSON Lines, which end at newlines alone."""
    if not output:
        return []
    if not output.endswith("\n"):
        raise Wrong("the last line has no end")
    return [_object(text) for text in output[:-1].split("\n")]


def _object(text: str) -> Told:
    told: Any = json.loads(text)
    if not isinstance(told, dict):
        raise Wrong(f"no object: {text}")
    _check_keys(told)
    return told


def _check_keys(told: Told) -> None:
    """Each key stands once, in order, and they are those of the line's kind."""
    kind: str = told["type"]
    keys = _left_keys(told) if kind == "left" else KEYS[kind]
    if list(told) != list(keys):
        raise Wrong(f"the keys of {told}")


def _left_keys(told: Told) -> List[str]:
    """The keys of what is left, in order."""
    kind: str = told["kind"]
    more = [key for key in _MAY_HAVE.get(kind, ()) if key in told]
    return sorted(("kind", "type", *LEFT_KEYS[kind], *more))


def _of_type(lines: Sequence[Told], kind: str) -> List[Told]:
    return [line for line in lines if line["type"] == kind]


def _equal(what: str, told: object, expected: object) -> None:
    if told != expected:
        raise Wrong(f"{what}: {told!r} is printed, and not {expected!r}")


def check_form(lines: Sequence[Told]) -> None:
    """The lines come in the order of docs/JSON.md, and are numbered."""
    places = [_ORDER.index(line["type"]) for line in lines]
    _equal("the order of the lines", places, sorted(places))
    _equal("the first line", lines[0], {"type": "start", "version": 1})
    _equal("the last line", [line["type"] for line in lines].count("end"), 1)
    for kind in ("entry", "deferred"):
        numbers = [line["number"] for line in _of_type(lines, kind)]
        _equal(f"the numbers of {kind}", numbers, list(range(len(numbers))))
    _check_places(_of_type(lines, "entry"))
    _check_fired(lines)
    weight = sum(line["weight"] for line in _of_type(lines, "entry"))
    _equal("the weight of the run", lines[-1]["weight"], weight)


def _check_places(entries: Sequence[Told]) -> None:
    """What an entry lies in came before it, of the same event, and lies one less deep; a side is ended once, by its Deferred."""
    ended: List[int] = []
    for entry in entries:
        under: Optional[int] = entry["under"]
        depth = 0 if under is None else entries[under]["depth"] + 1
        _equal(f"the depth of {entry['number']}", entry["depth"], depth)
        if under is not None:
            _equal(f"the event of {under}", entries[under]["event"], entry["event"])
        if entry["ends"] is not None:
            begun = entries[entry["ends"]]
            _equal("what ends a side", begun["kind"], "run")
            _equal("whose side ends", entry["deferreds"][0], begun["deferreds"][0])
            _equal("where a side ends", (entry["under"], entry["depth"]), (begun["under"], begun["depth"]))
            ended.append(entry["ends"])
    _equal("how often sides end", len(ended), len(set(ended)))


def _check_fired(lines: Sequence[Told]) -> None:
    entries = _of_type(lines, "entry")
    for deferred in _of_type(lines, "deferred"):
        fired_by: Optional[int] = deferred["fired_by"]
        _equal("whether it is fired", fired_by is None, deferred["state"] == "unfired")
        if fired_by is not None:
            entry = entries[fired_by]
            _equal("by what it is fired", (entry["kind"], entry["deferreds"][0]["number"]), ("fire", deferred["number"]))


def joined(lines: Sequence[Told]) -> str:
    """The texts of entries and Deferreds."""
    return "".join(f"{line['line']}\n" for line in lines if line["type"] in ("entry", "deferred"))


def check_run(script: str, printed: Ran, told: Ran) -> List[Told]:
    """Holds a run as JSON against what is printed of it, and gives its lines."""
    _equal("the status", told.status, printed.status)
    _equal("standard error", told.errors, printed.errors)
    lines = read_lines(told.output)
    if printed.status not in (0, 1, _UNMET):
        _equal("what is printed of a refused script", lines, [])
        return lines
    check_form(lines)
    _equal("the lines", joined(lines), printed.output)
    _equal("whether it stopped", lines[-1]["stopped"], printed.status == 1)
    entries = len(_of_type(lines, "entry"))
    _equal("what isn't as expected", lines[-1]["unmet"], entries - 1 if printed.status == _UNMET else None)
    check_events(script, lines)
    return lines


def check_events(script: str, lines: Sequence[Told]) -> None:
    """Events come in order; an advance begins one of that kind, and a drain too."""
    events: List[Any] = written_out(json.loads(script)["events"])
    last = 0
    for entry in _of_type(lines, "entry"):
        event: Optional[int] = entry["event"]
        at = len(events) if event is None else event
        _equal("whether an event comes after the one before", at >= last, True)
        last = at
        if entry["kind"] in ("advance", "drain"):
            _equal("the event of a line", events[at][0], entry["kind"])


def check_fold(output: str, lines: Sequence[Told]) -> bool:
    """Holds a run against a fold of its journal. False where a name was made twice, so that only the Deferreds are compared."""
    try:
        found = agreement(read_facts(output), lines)
    except NotFacts as why:
        raise Wrong(str(why)) from None
    if found.differences:
        raise Wrong("\n  ".join(found.differences[:_MOST_DIFFERENCES]))
    return found.is_whole


def rows_of(lines: Sequence[Told]) -> Iterator[str]:
    """What is left, a line of JSON each, as it stands in files of rows."""
    for line in _of_type(lines, "left"):
        yield json.dumps(line, ensure_ascii=False, separators=(",", ":"))
