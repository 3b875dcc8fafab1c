"""Where in the program's own files each Deferred of a recorded run was made, and each action of its script ran."""

from __future__ import annotations

import json
from typing import Any, Dict, Iterator, List, Mapping, Optional, Sequence, Tuple

from ..telling import Action, Record, Thing
from .arguments import Call
from .hiding import Hiding
from .places import ProgramLine
from .recorder import Recorder
from .sources import sources_of
from .stacks import Stack, Stacks

#: arrays of a script, and the actions that they say, by the numbers of Python for the arrays
Acted = Dict[int, Tuple[List[Any], Action]]

_VERSION = 1


def whereabouts_of(
    recorder: Recorder, records: Sequence[Record], script: Optional[Dict[str, Any]], acted: Acted
) -> Optional[str]:
    """The places as JSON, whose form is in docs/RECORD.md; None where none is known.

    `records` have their names. Without a script the places are those of Deferreds alone.
    """
    lines: Dict[int, List[ProgramLine]] = {}
    made = ((record, record.made_at) for record in recorder.records)
    for what, found in recorder.spots.all(made):
        lines.setdefault(id(what), found)
    if not lines:
        return None
    written = _Written(Stacks(recorder.events, lines), lines)
    for record in records:
        if record.name not in (None, "-"):
            written.add_record(record)
    for pointer, action in actions_of(script, acted):
        written.add_action(pointer, action)
    for call in recorder.spots.calls:
        written.add_call(call)
    for thing, line in recorder.spots.of_things():
        written.add_thing(thing, line)
    document = written.document(recorder.texts.hiding, recorder.spots.began)
    return json.dumps(document, ensure_ascii=True, separators=(",", ":")) + "\n"


class _Written:
    """What the file of places has: each file, each line of a function and each stack once."""

    def __init__(self, stacks: Stacks, lines: Mapping[int, List[ProgramLine]]) -> None:
        self._stacks = stacks
        self._lines = lines
        self._files: Dict[str, int] = {}
        self._frames: Dict[ProgramLine, int] = {}
        self._lists: Dict[Tuple[Tuple[int, ...], ...], int] = {}
        self._deferreds: Dict[str, List[int]] = {}
        self._actions: Dict[str, List[int]] = {}
        self._of_deferreds: Dict[str, int] = {}
        self._of_actions: Dict[str, int] = {}
        self._calls: Dict[str, str] = {}
        self._things: Dict[str, List[int]] = {}

    def add_record(self, record: Record) -> None:
        """Adds where a Deferred was made, if that is known."""
        lines, name = self._lines.get(id(record)), str(record.name)
        if lines is not None and name not in self._deferreds:
            self._deferreds[name] = self._place(lines[0])
            self._of_deferreds[name] = self._list(self._stacks.of_record(record))

    def add_action(self, pointer: str, action: Action) -> None:
        """Adds where an action ran, if that is known."""
        record = action[1] if action[0] == "deferred" else None
        lines = self._lines.get(id(action if record is None else record))
        if lines is not None:
            self._actions[pointer] = self._place(lines[0])
            self._of_actions[pointer] = self._list(self._stacks.of_action(action) if record is None else self._stacks.of_record(record))

    def add_call(self, call: Call) -> None:
        """Adds what an inline body was called with."""
        record = call.action[1]
        if record is not None and record.name not in (None, "-"):
            self._calls.setdefault(str(record.name), call.text)

    def add_thing(self, thing: Thing, line: ProgramLine) -> None:
        """Adds where a lock or a queue was made."""
        self._frames.setdefault(line, len(self._frames))
        self._things.setdefault(thing.name, self._place(line))

    def _place(self, line: ProgramLine) -> List[int]:
        return [self._files.setdefault(line.path, len(self._files)), line.line]

    def _list(self, stack: Stack) -> int:
        numbers = tuple(tuple(self._frames.setdefault(line, len(self._frames)) for line in part) for part in stack)
        return self._lists.setdefault(numbers, len(self._lists))

    def document(self, hiding: Hiding, began: float) -> Dict[str, Any]:
        """The whole."""
        lines: Dict[str, List[int]] = {}
        for line in self._frames:
            lines.setdefault(line.path, []).append(line.line)
        stacks = {
            "frames": [[*self._place(line), line.function] for line in self._frames],
            "lists": list(self._lists),
            "deferreds": self._of_deferreds,
            "actions": self._of_actions,
        }
        return {
            "version": _VERSION,
            "files": list(self._files),
            "deferreds": self._deferreds,
            "actions": self._actions,
            "stacks": stacks,
            "calls": self._calls,
            "things": self._things,
            "sources": [[self._files[path], kept.first, kept.lines] for path, kept in sources_of(lines, hiding, began)],
        }


def actions_of(script: Optional[Dict[str, Any]], acted: Acted) -> Iterator[Tuple[str, Action]]:
    """Each action that the script says, with its JSON Pointer there, in order."""
    keys = ("events", "bodies")
    todo: List[Tuple[str, Any]] = [(f"/{key}", script[key]) for key in keys if script is not None and key in script]
    while todo:
        pointer, value = todo.pop()
        if isinstance(value, list):
            array, action = acted.get(id(value), (None, None))
            if array is value and action is not None:
                yield pointer, action
            todo.extend((f"{pointer}/{place}", item) for place, item in reversed(list(enumerate(value))))
        elif isinstance(value, dict):
            todo.extend((f"{pointer}/{key}", item) for key, item in value.items())
