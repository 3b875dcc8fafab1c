"""Values and failures as the journal shows them, and what they weigh there."""

from __future__ import annotations

import json
import weakref
from typing import Any, Callable, Dict, Optional, Tuple, TypeVar, Union

from twisted.internet.defer import FirstError
from twisted.python.failure import Failure

from .classes import Classes, clean, message_of, own_message, plain_message

_LEAST, _MOST = -(2**63), 2**63 - 1

#: a VALUE of the language, in which a failure is an object with the key "fail"
Shown = Any

_DEEPEST = 40


def compact(value: Shown) -> str:
    """The compact JSON of a value."""
    return str(value) if type(value) is int else _ENCODER.encode(value)


#: what isn't JSON is a named object, whose name may be settled later
_ENCODER = json.JSONEncoder(ensure_ascii=False, separators=(",", ":"), default=str)


def weight_of(value: Shown) -> int:
    """What a value weighs in a line."""
    if isinstance(value, str):
        return 1 + len(value.encode("utf-8"))
    if isinstance(value, list):
        return 1 + sum(map(weight_of, value))
    if isinstance(value, dict):
        own = 1 + len(value["message"].encode("utf-8"))
        return own + (weight_of(value["sub"]) if "sub" in value else 0)
    return 1 if value is None or isinstance(value, int) else 1 + len(str(value))


def failure_text(failure: Dict[str, Any]) -> str:
    """A failure as `CLASS "MESSAGE"`, and what a FirstError holds."""
    text = f"{failure['fail']} {compact(failure['message'])}"
    if "sub" in failure:
        text += f" at {failure['index']} of {failure_text(failure['sub'])}"
    return text


class Copied(Exception):
    """An error of which a failure holds a text, since it was copied from another program."""


class Outcome:
    """What a Deferred has, as `ok JSON` or `fail CLASS "MESSAGE"`, and what that weighs.

    Both are worked out where they are asked for, of the value as it was when it was set.
    """

    __slots__ = ("value",)

    def __init__(self, value: Shown) -> None:
        self.value = value

    @property
    def text(self) -> str:
        """How a line shows it."""
        if isinstance(self.value, dict):
            return f"fail {failure_text(self.value)}"
        return f"ok {compact(self.value)}"

    @property
    def weight(self) -> int:
        """What it weighs in a line."""
        return weight_of(self.value)

    def is_same(self, other: "Outcome") -> bool:
        """Whether both show the same."""
        mine, its = self.value, other.value
        if mine is its:
            return True
        return type(mine) is type(its) and mine == its and self.text == other.text


NULL = Outcome(None)


class Value(Outcome):
    """A value alone, as JSON."""

    __slots__ = ()

    @property
    def text(self) -> str:
        """How a line shows it."""
        return compact(self.value)


class Text:
    """A part of a line that weighs: a value, a text or a failure."""

    __slots__ = ("text", "weight")

    def __init__(self, text: str, weight: int) -> None:
        self.text = text
        self.weight = weight


_Given = TypeVar("_Given")


class Texts:
    """Says the values of a run in the words of the language: what it has no value for becomes a text.

    One object has one text, as long as it lives; nothing is kept alive for that.
    """

    def __init__(self, classes: Classes) -> None:
        self.classes = classes
        self._named: Dict[int, Tuple[Any, Any]] = {}
        self._counts: Dict[str, int] = {}

    def ask(self, call: Callable[[], _Given]) -> _Given:
        """What code of the program's says of an object."""
        return call()

    def outcome(self, value: object) -> Outcome:
        """What a Deferred that has this value shows."""
        return NULL if value is None else Outcome(self.shown(value))

    def failure(self, error: BaseException) -> Text:
        """An error, as the journal shows it."""
        shown = self.error(error)
        return Text(failure_text(shown), weight_of(shown))

    def value(self, value: object) -> Value:
        """A value, as JSON."""
        return Value(self.shown(value))

    def shown(self, value: Any, depth: int = 0) -> Shown:
        """A value in the language."""
        kind = type(value)
        if value is None or kind is bool or (kind is int and _LEAST <= value <= _MOST):
            return value
        if kind is str:
            return clean(value)
        if kind in (list, tuple) and depth < _DEEPEST:
            return [self.shown(item, depth + 1) for item in value]
        if isinstance(value, Failure):
            return self.error(self.error_of(value), depth)
        return self.named(value)

    def error_of(self, failure: Failure) -> BaseException:
        """The error that a failure holds."""
        error: object = failure.value
        return error if isinstance(error, BaseException) else Copied(self._copied(failure, error))

    def _copied(self, failure: Failure, value: object) -> str:
        """The text of what a failure holds in place of an error, which is asked for once."""
        if type(value) is str:
            return value
        attributes = vars(failure)
        if "_dv_copied" not in attributes:
            attributes["_dv_copied"] = self.ask(lambda: clean(str(value)))
        return str(attributes["_dv_copied"])

    def error(self, error: BaseException, depth: int = 0) -> Dict[str, Any]:
        """A failure of this error in the language."""
        name, message = self.classes.name_of(type(error)), self.message(error)
        sub: Union[Failure, None] = getattr(error, "subFailure", None) if isinstance(error, FirstError) else None
        if sub is None or depth > _DEEPEST:
            return {"fail": name, "message": message}
        below = self.error(self.error_of(sub), depth + 1)
        return {"fail": name, "index": getattr(error, "index"), "message": message, "sub": below}

    def message(self, error: BaseException) -> str:
        """The message of an error."""
        return message_of(error, self._asked_message)

    def _asked_message(self, error: BaseException) -> str:
        own = own_message(error)
        if own is not None:
            return own
        plain = plain_message(error)
        if plain is not None:
            return clean(plain)
        try:
            return self.ask(lambda: clean(str(error)))
        except Exception:
            return "<unprintable>"

    def bind(self, thing: object, text: Any, owner: Optional[object] = None) -> None:
        """Has an object shown as this text, or as the name that this object has when the run is said.

        `owner` keeps it alive. One that has no weak references is shown so as long as its owner lives.
        """
        key = id(thing)
        try:
            kept: Any = weakref.ref(thing, lambda _: self._named.pop(key, None))
        except TypeError:
            kept = thing if owner is None else weakref.ref(owner, lambda _: self._named.pop(key, None))
        self._named[key] = (kept, text)

    def forget_kept(self) -> None:
        """Forgets the objects that can't be forgotten when they go, and so are kept alive: each gets another text from now on."""
        self._named = {key: named for key, named in self._named.items() if isinstance(named[0], weakref.ref)}

    def named(self, thing: object) -> Any:
        """An object, by its type and a number, or by what it is bound to."""
        known = self._named.get(id(thing))
        if known is None:
            kind = type(thing).__name__
            number = self._counts[kind] = self._counts.get(kind, 0) + 1
            self.bind(thing, clean(f"<{kind} {number}>"))
            known = self._named[id(thing)]
        return known[1]
