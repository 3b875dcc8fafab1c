"""Where in the files of a program Deferreds were made and actions performed, as `./record` tells it beside a script."""

from __future__ import annotations

import json
import os
from typing import Any, Dict, List, Mapping, NamedTuple, Optional, Sequence, Tuple
from urllib.parse import quote


class Place(NamedTuple):
    """A line of a file."""

    file: str
    line: int

    @property
    def text(self) -> str:
        """The name of the file and the line: `cache.py:12`."""
        return f"{os.path.basename(self.file)}:{self.line}"

    @property
    def whole(self) -> str:
        """The whole path and the line."""
        return f"{self.file}:{self.line}"

    @property
    def address(self) -> Optional[str]:
        """The file as an address, which a page on the same machine can link; None where its path isn't absolute."""
        if not self.file.startswith("/"):
            return None
        return f"file://{quote(self.file, errors='surrogatepass')}"


class Frame(NamedTuple):
    """A line of the program, and the function that it is in."""

    place: Place
    function: str

    @property
    def text(self) -> str:
        """The name of the file, the line and the function: `cache.py:12 get`."""
        return f"{self.place.text} {self.function}"


class SourceLine(NamedTuple):
    """A line of a file as it was in the run, and its number."""

    number: int
    text: str


#: by files, lines that follow each other, each with the number of the first one
Sources = Dict[str, List[Tuple[int, List[str]]]]
#: how many lines before and after a place are shown of it
_AROUND = 3
#: how long a name is at most to which a line binds something
_LONGEST_TARGET = 60

#: the functions of the program in which something happened: those on Python's stack, innermost first; then those where the body was
#: handed to Twisted in which these ran, and so on
Stack = Tuple[Tuple[Frame, ...], ...]


class NotPlaces(Exception):
    """A text isn't one of places: why."""


class Places:
    """The places of a run: by the names of Deferreds, and by the JSON Pointers of actions of its script."""

    def __init__(
        self,
        deferreds: Mapping[str, Place],
        actions: Mapping[str, Place],
        stacks: Optional[Mapping[str, Stack]] = None,
        sources: Optional[Sources] = None,
        calls: Optional[Mapping[str, str]] = None,
        things: Optional[Mapping[str, Place]] = None,
    ) -> None:
        """`stacks`: by names and JSON Pointers, as far as they are known; likewise `sources`, by the names of inline bodies their `calls`, and by
        the names of locks and queues where they were made."""
        self._things: Mapping[str, Place] = things if things is not None else {}
        self._calls: Mapping[str, str] = calls if calls is not None else {}
        self._sources: Sources = sources if sources is not None else {}
        self._deferreds = deferreds
        self._actions = actions
        self._stacks: Mapping[str, Stack] = stacks if stacks is not None else {}
        #: by its text, each place that is known; None if there are several. It is made when it is asked for
        self._named: Dict[str, Optional[Place]] = {}
        self._functions: Optional[Dict[Place, str]] = None

    def __bool__(self) -> bool:
        return bool(self._deferreds or self._actions)

    @property
    def has_stacks(self) -> bool:
        """Whether it is known in which functions all happened."""
        return bool(self._stacks)

    def of_deferred(self, names: Sequence[str]) -> Optional[Place]:
        """Where a Deferred of these names was made."""
        return next((self._deferreds[name] for name in names if name in self._deferreds), None)

    def stack_of(self, names: Sequence[str]) -> Stack:
        """The functions in which a Deferred of these names was made; none if they aren't known."""
        return next((self._stacks[name] for name in names if name in self._stacks), ())

    def stack_of_action(self, pointer: str) -> Stack:
        """The functions in which the action of this JSON Pointer was performed; none if they aren't known."""
        return self._stacks.get(pointer, ())

    def call_of(self, names: Sequence[str]) -> str:
        """With what the inline body of a Deferred of these names was called: `get(key=3)`; an empty text if that isn't known."""
        return next((self._calls[name] for name in names if name in self._calls), "")

    def of_thing(self, name: str) -> Optional[Place]:
        """Where the lock, the semaphore or the queue of this name was made, if that is known."""
        return self._things.get(name)

    def bound_at(self, place: Place) -> str:
        """What the line of a place binds, as `self.locks[name]` of `self.locks[name] = DeferredLock()`; an empty text if it binds nothing."""
        lines = self.source_of(place, 0)
        target = lines[0].text.partition("=") if lines else ("", "", "")
        text = target[0].strip()
        is_bound = target[1] and target[2][:1] != "=" and "(" not in text and len(text) <= _LONGEST_TARGET
        return text if is_bound else ""

    def source_of(self, place: Place, around: int = _AROUND) -> List[SourceLine]:
        """The lines of the file around a place, so many before and after it; none if they weren't kept."""
        for first, lines in self._sources.get(place.file, []):
            if first <= place.line < first + len(lines):
                shown = range(max(first, place.line - around), min(first + len(lines), place.line + around + 1))
                return [SourceLine(number, lines[number - first]) for number in shown]
        return []

    def function_of(self, place: Place) -> str:
        """The function in which a place is; an empty text if it isn't known."""
        if self._functions is None:
            frames = (frame for stack in self._stacks.values() for part in stack for frame in part)
            self._functions = {frame.place: frame.function for frame in frames}
        return self._functions.get(place, "")

    def of_action(self, pointer: str) -> Optional[Place]:
        """Where the action of this JSON Pointer was performed."""
        return self._actions.get(pointer)

    def named(self, text: str) -> Optional[Place]:
        """The place of this text, as `cache.py:12`, if there is one alone."""
        if not self._named:
            for place in [*self._deferreds.values(), *self._actions.values()]:
                self._named[place.text] = place if self._named.get(place.text, place) == place else None
        return self._named.get(text)

    def of_event(self, number: int) -> Optional[Place]:
        """Where an event of the script was performed."""
        return self.of_action(f"/events/{number}")


NOWHERE = Places({}, {})


def read_places(text: str) -> Places:
    """The places that a text tells. Raises NotPlaces."""
    try:
        document: Any = json.loads(text)
    except (ValueError, RecursionError):
        raise NotPlaces("it isn't JSON") from None
    if not isinstance(document, dict) or document.get("version") != 1:
        raise NotPlaces("it isn't an object of version 1")
    files = document.get("files")
    if not isinstance(files, list) or not all(isinstance(file, str) for file in files):
        raise NotPlaces("its files aren't an array of texts")
    return Places(_table(document, "deferreds", files), _table(document, "actions", files), _stacks(document, files), _sources(document, files), _calls(document), _things(document, files))


def _table(document: Dict[str, Any], key: str, files: List[str]) -> Dict[str, Place]:
    table = document.get(key)
    if not isinstance(table, dict):
        raise NotPlaces(f"its {key} aren't an object")
    return {name: _place(key, name, value, files) for name, value in table.items()}


def _stacks(document: Dict[str, Any], files: List[str]) -> Dict[str, Stack]:
    """The stacks by names and JSON Pointers. Earlier recordings have none."""
    told = document.get("stacks")
    if told is None:
        return {}
    if not isinstance(told, dict) or not all(isinstance(told.get(key), list) for key in ("frames", "lists")):
        raise NotPlaces("its stacks aren't an object of frames and lists")
    frames = [_frame(value, files) for value in told["frames"]]
    lists = [_stack(value, frames) for value in told["lists"]]
    found: Dict[str, Stack] = {}
    for key in ("deferreds", "actions"):
        table = told.get(key)
        if not isinstance(table, dict) or not all(type(number) is int and 0 <= number < len(lists) for number in table.values()):
            raise NotPlaces(f"the {key} of its stacks aren't numbers of lists")
        found.update({name: lists[number] for name, number in table.items()})
    return found


def _frame(value: object, files: List[str]) -> Frame:
    if isinstance(value, list) and len(value) == 3 and isinstance(value[2], str):
        return Frame(_place("frames", value[2], value[:2], files), value[2])
    raise NotPlaces("a frame of its stacks isn't the number of a file, a line and a function")


def _stack(value: object, frames: List[Frame]) -> Stack:
    if not isinstance(value, list) or not all(isinstance(part, list) for part in value):
        raise NotPlaces("a list of its stacks isn't an array of arrays")
    if not all(type(number) is int and 0 <= number < len(frames) for part in value for number in part):
        raise NotPlaces("a list of its stacks has something else than numbers of frames")
    return tuple(tuple(frames[number] for number in part) for part in value)


def _sources(document: Dict[str, Any], files: List[str]) -> Sources:
    """The lines that were kept. Earlier recordings have none."""
    told = document.get("sources", [])
    if not isinstance(told, list):
        raise NotPlaces("its sources aren't an array")
    found: Dict[str, List[Tuple[int, List[str]]]] = {}
    for value in told:
        if not isinstance(value, list) or len(value) != 3 or not isinstance(value[2], list):
            raise NotPlaces("one of its sources isn't the number of a file, a line and an array")
        place = _place("sources", "a line", value[:2], files)
        if not all(isinstance(line, str) for line in value[2]):
            raise NotPlaces("one of its sources has something else than texts")
        found.setdefault(place.file, []).append((place.line, value[2]))
    return found


def _calls(document: Dict[str, Any]) -> Dict[str, str]:
    """What inline bodies were called with. Earlier recordings don't say it."""
    told = document.get("calls", {})
    if not isinstance(told, dict) or not all(isinstance(call, str) for call in told.values()):
        raise NotPlaces("its calls aren't an object of texts")
    return told


def _things(document: Dict[str, Any], files: List[str]) -> Dict[str, Place]:
    """Where locks and queues were made. Earlier recordings don't say it."""
    return _table(document, "things", files) if "things" in document else {}


def _place(key: str, name: str, value: object, files: List[str]) -> Place:
    if isinstance(value, list) and [type(part) for part in value] == [int, int]:
        file, line = value
        if 0 <= file < len(files) and line > 0:
            return Place(files[file], line)
    raise NotPlaces(f"in its {key}, that of {name} isn't the number of a file and a line")
