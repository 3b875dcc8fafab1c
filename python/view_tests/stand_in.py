"""A stand-in for `./deferreds --json`: tells a journal in that form, by docs/JSON.md, with what is left as a test
says.
"""

from __future__ import annotations

import json
from typing import Any, Dict, List, Optional, Sequence

from deferreds.view.lines import read_end, read_line, split
from deferreds.view.sections import places_of

Json = Dict[str, Any]

_KINDS = {
    "lock": "lock semaphore acquire release",
    "queue": "queue put get",
    "call": "uncall reset call",
    "loop": "loop turn stop",
    "task": "task step hold end pausetask resumetask whendone",
}
_KIND_OF = {word: kind for kind, words in _KINDS.items() for word in words.split()}
_MAKERS = frozenset({"lock", "semaphore", "queue", "later call", "loop", "task"})


def told(output: str, begins: Sequence[int], left: Sequence[Json] = (), stopped: bool = False) -> str:
    """A journal with its outcomes, whose events begin at these rows; an event of no line begins where the next one does."""
    lines, outcomes = split(output)
    names: Dict[int, Optional[str]] = {}
    made: Dict[str, List[str]] = {}
    entries, time = [read_line(row, line) for row, line in enumerate(lines)], 0
    written: List[Json] = [{"type": "start", "version": 1}]
    for row, (line, entry, place) in enumerate(zip(lines, entries, places_of(entries, begins))):
        if entry.word == "new":
            names[entry.deferred] = None if entry.name == "-" else entry.name
        time = entry.number if entry.word == "advance" else time
        kind = f"later {entry.what}" if entry.word == "later" else entry.word
        numbers = [int(word[1:]) for word in line[: entry.head].split() if word.startswith("#")]
        written.append(
            {
                "deferreds": [{"name": names[number], "number": number} for number in numbers],
                "depth": place.depth,
                "due": None,
                "ends": None,
                "event": place.event,
                "kind": kind,
                "line": line,
                "number": row,
                "objects": _objects(kind, entry.name, made),
                "section": None,
                "time": time,
                "type": "entry",
                "under": place.under,
                "value": None,
                "weight": 1,
            }
        )
    fires = {entry.deferred: entry.row for entry in entries if entry.word == "fire"}
    for outcome in outcomes:
        end = read_end(outcome)
        assert end is not None
        fired = fires.get(end.number)
        written.append(
            {
                "type": "deferred",
                "number": end.number,
                "name": end.name,
                "line": outcome,
                "fired_by": fired,
            }
        )
    written += [{"type": "left", **one} for one in left]
    written.append(
        {"type": "end", "stopped": stopped, "weight": len(lines), "limit": 2000, "time": time}
    )
    return "".join(json.dumps(one, ensure_ascii=False) + "\n" for one in written)


def _objects(kind: str, name: str, made: Dict[str, List[str]]) -> List[Json]:
    """The object that a line names, which is the last of that name."""
    of = "call" if kind == "later call" else "loop" if kind == "later loop" else _KIND_OF.get(kind)
    if of is None:
        return []
    known = made.setdefault(of, [])
    if kind in _MAKERS:
        known.append(name)
    last = len(known) - 1 - known[::-1].index(name)
    return [{"kind": of, "name": name, "number": last}]


def deferred(number: int, name: str = "d") -> Json:
    """A DEFERRED."""
    return {"name": name, "number": number}


def thing(kind: str, number: int, name: str = "o") -> Json:
    """An OBJECT."""
    return {"kind": kind, "name": name, "number": number}


def stuck(number: int, state: str, *hangs: Json, pauses: int = 0, running: bool = False) -> Json:
    """A Deferred that is left."""
    return {
        "kind": "deferred",
        "deferred": deferred(number),
        "state": state,
        "pauses": pauses,
        "running": running,
        "hangs": list(hangs),
    }
