"""A script, as far as the view shows it: its events as short texts, and the actions that fire a name."""

from __future__ import annotations

import json
from typing import Any, Dict, FrozenSet, Iterator, List, Optional, Sequence, Tuple

from ..language import LANGUAGE, Form, Word
from ..repeats import written_out

_NEW_DEFERRED: Form = {"type": "new", "of": "deferred"}


def _names_in_front(word: Word) -> int:
    """How many of the first arguments are names of objects."""
    others = (
        place
        for place, form in enumerate(word.arguments)
        if form["type"] not in ("new", "found") or form["of"] == "class"
    )
    return next(others, len(word.arguments))


#: how many of the first arguments of an action or a statement are names
_NAMES: Dict[str, int] = {
    word.word: _names_in_front(word) for word in LANGUAGE.at("action") + LANGUAGE.at("statement")
}
#: which argument names the Deferred that an action makes, and that not only actions are to fire
_MADE: Dict[str, int] = {
    word.word: word.arguments.index(_NEW_DEFERRED)
    for word in LANGUAGE.at("action")
    if word.word != "deferred" and _NEW_DEFERRED in word.arguments
}
#: the words that may have an array of bodies or statements
_WITH_LISTS = frozenset({"inline", "cooperate", "cooperateIn", "loop"})
_DEEPEST = 1
_EXACT = json.JSONDecoder()

#: the places of actions, by the name of a Deferred
Places = Dict[str, List[str]]


class Script:
    """A script, which may be any JSON at all: what isn't of the form is left out."""

    def __init__(self, document: object = None) -> None:
        self._document: Dict[str, Any] = document if isinstance(document, dict) else {}
        events = self._document.get("events")
        self.events: Sequence[Any] = written_out(events) if isinstance(events, list) else []
        self._places: Optional[Tuple[Places, Places]] = None

    def shown(self, event: int) -> str:
        """An event as a short text."""
        if not 0 <= event < len(self.events):
            return ""
        try:
            return shown(self.events[event])
        except RecursionError:
            return "…"

    def whole(self, event: int) -> str:
        """An event as it stands in the script, in compact JSON."""
        if not 0 <= event < len(self.events):
            return ""
        try:
            return compact(self.events[event])
        except RecursionError:
            return ""

    def fired_with(self, event: int) -> str:
        """What an event fires a Deferred with: a value, or the class of a failure and its message; an empty text where it fires none."""
        action = self.events[event] if 0 <= event < len(self.events) else None
        if not isinstance(action, list) or len(action) < 3 or action[0] not in ("callback", "errback"):
            return ""
        try:
            return compact(action[2]) if action[0] == "callback" else " ".join([_text(action[2]), *map(compact, action[3:])])
        except RecursionError:
            return ""

    def expected(self, event: int) -> str:
        """What an event expects of a Deferred, as `ok VALUE` or `unfired`; an empty text if it expects nothing."""
        action = self.events[event] if 0 <= event < len(self.events) else None
        if not isinstance(action, list) or len(action) < 3 or action[0] != "expect" or not isinstance(action[2], list):
            return ""
        try:
            return " ".join([_text(part) if place == 0 else compact(part) for place, part in enumerate(action[2])])
        except RecursionError:
            return ""

    def actions(self) -> Iterator[Tuple[List[Any], str]]:
        """Each action, and whatever else is an array that begins with a text, with its place as a JSON Pointer."""
        for key in ("events", "callers"):
            for action, place in _actions(self._document.get(key), f"/{key}"):
                if action and isinstance(action[0], str):
                    yield action, place

    def firing(self, names: Sequence[str]) -> List[str]:
        """The places of the actions that fire a Deferred of one of the names, as JSON Pointers."""
        return [place for name in dict.fromkeys(names) for place in self._found()[0].get(name, ())]

    def making(self, names: Sequence[str]) -> List[str]:
        """The places of the actions that make a Deferred of one of the names, which a list, a lock or the like is to fire."""
        return [place for name in dict.fromkeys(names) for place in self._found()[1].get(name, ())]

    @property
    def bodies(self) -> FrozenSet[str]:
        """The names of the Deferreds of inline bodies."""
        return frozenset(_text(action[1]) for action, _ in _actions(self.events, "") if len(action) > 1 and action[0] == "inline")

    def _found(self) -> Tuple[Places, Places]:
        if self._places is None:
            self._places = {}, {}
            for key in ("events", "callers"):
                for action, place in _actions(self._document.get(key), f"/{key}"):
                    for places, name in zip(self._places, (_fired(action), _made(action))):
                        if name:
                            places.setdefault(name, []).append(place)
        return self._places


def read_script(text: str) -> Script:
    """The script of a text, as far as it can be read: the program says whether it is one."""
    try:
        return Script(_EXACT.decode(text))
    except (ValueError, RecursionError):
        return Script()


def _text(value: object) -> str:
    return value if isinstance(value, str) else ""


def _actions(part: object, place: str) -> Iterator[Tuple[List[Any], str]]:
    """Each array below this place, with where it stands: actions are among them."""
    todo: List[Tuple[object, str]] = [(part, place)]
    while todo:
        value, at = todo.pop()
        if isinstance(value, list):
            yield value, at
            todo.extend((inner, f"{at}/{index}") for index, inner in reversed(list(enumerate(value))))
        elif isinstance(value, dict):
            todo.extend((inner, f"{at}/{key}") for key, inner in value.items() if key == "do")


def _fired(action: List[Any]) -> str:
    """The name that an action fires."""
    if len(action) > 2 and action[0] in ("callback", "errback"):
        return _text(action[1])
    return _text(action[2]) if len(action) > 2 and action[0] == "chain" else ""


def _made(action: List[Any]) -> str:
    """The name of the Deferred that an action makes, which not only actions are to fire."""
    place = _MADE.get(action[0]) if action and isinstance(action[0], str) else None
    return _text(action[place + 1]) if place is not None and len(action) > place + 1 else ""


_COMPACT = json.JSONEncoder(ensure_ascii=False, separators=(",", ":"))


def compact(value: object) -> str:
    """A value as compact JSON."""
    return _COMPACT.encode(value)


def shown(action: object, deep: int = 0) -> str:
    """An action or a statement as a short text: `later retry 1 {callback d 1}`."""
    if not isinstance(action, list) or not action or not isinstance(action[0], str):
        return compact(action)
    word = action[0]
    if word == "do" and len(action) == 2:
        return shown(action[1], deep)
    if word == "end" and len(action) == 2:
        return _end(action[1])
    if word == "try" and len(action) == 4:
        return f"try {_body(action[1], deep)} except {compact(action[2])} {_body(action[3], deep)}"
    names = _NAMES.get(word, 0)
    return " ".join(
        [word] + [_argument(word, value, index < names, deep) for index, value in enumerate(action[1:])]
    )


def _argument(word: str, value: object, is_name: bool, deep: int) -> str:
    if is_name and isinstance(value, str):
        return value
    if isinstance(value, dict) or (word in _WITH_LISTS and isinstance(value, list)):
        return _body(value, deep)
    return compact(value)


def _body(body: object, deep: int) -> str:
    """A body, or a list of bodies or statements."""
    if deep > _DEEPEST:
        return "{…}" if isinstance(body, dict) else "[…]"
    if isinstance(body, list):
        return (
            "["
            + "; ".join(
                _body(part, deep) if isinstance(part, dict) else shown(part, deep + 1) for part in body
            )
            + "]"
        )
    if not isinstance(body, dict):
        return compact(body)
    actions = body.get("do")
    said = [shown(action, deep + 1) for action in actions] if isinstance(actions, list) else []
    if "end" in body:
        said.append(_end(body["end"]))
    return "{" + "; ".join(said) + "}"


def _end(end: object) -> str:
    if not isinstance(end, list) or not end or not isinstance(end[0], str):
        return f"→ {compact(end)}"
    named = end[0] == "wait"
    return " ".join(
        ["→", end[0]] + [part if named and isinstance(part, str) else compact(part) for part in end[1:]]
    )
