"""The values of programs as a recording shows them: each in bounded room, and with what is to be hidden left out.

A program is asked for the text of one of its objects at most once, and what its code does with Deferreds meanwhile isn't
told, since it wouldn't have been asked by itself.
"""

from __future__ import annotations

from types import FunctionType, GetSetDescriptorType
from typing import Any, Callable, Dict, List, Optional, TypeVar
from zlib import crc32  # (by its own name: the program may replace that of the module)

from twisted.python.failure import Failure

from ..classes import Classes, clean, own_message
from ..grammar import INDEXES
from ..texts import NULL, Outcome, Shown, Texts, compact
from .hiding import Hiding

#: the most characters, bytes or digits of a text that are shown in full, and how many are shown of a longer one
LONGEST, SHOWN = 200, 100
#: in how many of the first characters or bytes of a longer text secrets are looked for
LOOKED = 16_384
#: how many items a dict has at most, and how many attributes an object, that are shown; how long their text is; and how deep dicts lie
_MOST_PAIRS, _MOST_FIELDS, _LONGEST_OF_PAIRS, _DEEPEST_PAIRS = 10, 6, 120, 3
#: how many characters of a long argument are looked at
_LOOKED_OF_ARGUMENT = 400
#: the most values of which one is shown in full, how deep, and how many items are shown of each list of a larger one
MOST, DEEPEST, FIRST = 200, 20, 10

_LEAST_INTEGER, _MOST_INTEGER = -(2**63), 2**63 - 1
_MOST_BITS = 600
#: the least integer of which it is asked whether it is too large
_SMALL = 2**62

_Given = TypeVar("_Given")
_Leaf = Callable[[Any], Shown]

#: by classes, the methods that show their values
_WAYS = {
    int: "_integer",
    str: "_string",
    bytes: "_bytes",
    float: "_number",
    complex: "_number",
    Failure: "_failure",
}

#: the name of a class, though a class of it may say something else
_name_of: Callable[[type], str] = vars(type)["__name__"].__get__


class _TooLarge(Exception):
    """A value isn't shown in full."""


class Values(Texts):
    """Says the values of a program's run.

    `ask` calls what may be code of the program's. Raises what that raises.
    """

    def __init__(self, classes: Classes, ask: Callable[[Callable[[], Any]], Any], hiding: Hiding) -> None:
        super().__init__(classes)
        self._ask = ask
        self._hiding = self.hiding = hiding
        #: whether those that aren't too large are shown as they are
        self._shows_integers = not hiding.hides_all
        self._whole: Dict[type, _Leaf] = {}
        self._ways: Dict[type, _Leaf] = {}
        #: by the names of arguments, whether they say that these are secrets
        self._secret_names: Dict[str, bool] = {}
        #: by classes, whether the attributes of their objects are shown
        self._states: Dict[type, bool] = {}
        #: in how many dicts the one lies that is being shown
        self._depth = 0

    def ask_by(self, ask: Callable[[Callable[[], Any]], Any]) -> None:
        """From here on this calls what may be code of the program's."""
        self._ask = ask

    def ask(self, call: Callable[[], _Given]) -> _Given:
        """What code of the program's says of an object, where that uses Deferreds of its own alone."""
        given: _Given = self._ask(call)
        return given

    # whole values

    def outcome(self, value: object) -> Outcome:
        """What a Deferred that has this value shows."""
        if value is None:
            return NULL
        if type(value) is int and self._shows_integers and -_SMALL < value < _SMALL:
            return Outcome(value)
        return Outcome(self.shown(value))

    def shown(self, value: Any, depth: int = 0) -> Shown:
        """A value in the language."""
        kind = type(value)
        if kind is str:
            return self._string(value)
        way = self._whole.get(kind)
        if way is None:
            way = self._whole[kind] = self._way_of_whole(kind)
        return way(value)

    def _way_of_whole(self, kind: type) -> _Leaf:
        """How values of this class are shown that are part of no other."""
        if kind in _WAYS and kind is not Failure:
            return self._way_of_leaf(kind)
        if _is_list(kind):
            return self._list
        if Failure in kind.__mro__:
            return self._failed
        return self._pretender if _pretends(kind) else self._way_of_leaf(kind)

    def _list(self, value: Any) -> Shown:
        return self._bounded(value, self._leaf)

    def _failed(self, value: Failure) -> Shown:
        return self.error(self.error_of(value))

    def _pretender(self, value: Any) -> Shown:
        """What may say that it is of another class: Twisted asks by `isinstance` whether it is a Failure."""
        return self._failed(value) if self.ask(lambda: isinstance(value, Failure)) else self._leaf(value)

    def as_made(self, shown: Shown) -> Shown:
        """How a value that Twisted has made of others, which are shown so, is shown where the program makes the same."""
        return self._bounded(shown, _leaf_as_made) if type(shown) is list else shown

    def _bounded(self, value: Any, leaf: _Leaf) -> Shown:
        try:
            return _Full(leaf, self._hiding).of_list(value, 0)
        except _TooLarge:
            return _Brief(leaf, self._hiding).of_list(value, 0)

    # values without parts

    def _leaf(self, value: Any) -> Shown:
        """A value that is no list."""
        kind = type(value)
        return (self._ways.get(kind) or self._way_of_leaf(kind))(value)

    def _way_of_leaf(self, kind: type) -> _Leaf:
        """How values of this class are shown, which are no lists."""
        way = self._ways.get(kind)
        if way is None:
            way = self._ways[kind] = self._way(kind)
        return way

    def _way(self, kind: type) -> _Leaf:
        """How values of this class are shown."""
        if kind is bool or kind is type(None):
            return _itself
        for base in kind.__mro__:
            name = _WAYS.get(base)
            if name is not None:
                way: _Leaf = getattr(self, name)
                return way
        return self.named

    def _integer(self, value: int) -> Shown:
        plain = int.__int__(value)
        if self._hiding.hides_all:
            return self._hiding.value(plain)
        if _LEAST_INTEGER <= plain <= _MOST_INTEGER:
            return plain
        bits = plain.bit_length()
        if bits <= _MOST_BITS:
            return f"<int {plain}>"
        return f"<int of {bits:,} bits, {_digest(plain.to_bytes(bits // 8 + 1, 'big', signed=True))}>"

    def _string(self, value: str) -> str:
        plain = value if type(value) is str else str.__str__(value)
        hiding = self._hiding
        if hiding.hides_all:
            return hiding.value(plain)
        return hiding.text(plain) if len(plain) <= LONGEST and plain.isascii() else self.text(plain)

    def _bytes(self, value: bytes) -> str:
        plain = bytes.__getitem__(value, slice(None))
        if self._hiding.hides_all:
            return self._hiding.value(plain)
        if len(plain) <= LONGEST:
            return f"<bytes {self._repr(plain)}>"
        begin = self._repr(plain[:LOOKED])[: SHOWN + 2]
        return f"<bytes {begin}'.. of {len(plain):,}, {_digest(plain)}>"

    def _repr(self, plain: bytes) -> str:
        """Bytes as Python writes them, without their secrets."""
        text = bytes.decode(plain, "latin-1")
        return repr(self._hiding.text(text).encode("latin-1"))

    def _number(self, value: Any) -> str:
        plain = float.__repr__(value) if float in type(value).__mro__ else complex.__repr__(value)
        return self._hiding.value(plain) if self._hiding.hides_all else f"<{_name_of(type(value))} {plain}>"

    def _failure(self, value: Failure) -> Shown:
        return _as_member(self.error(self.error_of(value)))

    def text(self, text: str) -> str:
        """A text of the program's, in bounded room and without its secrets."""
        plain = clean(text)
        if len(plain) <= LONGEST:
            return self._hiding.text(plain)
        begin = self._hiding.text(plain[:LOOKED])[:SHOWN]
        return f"{begin}.. <{len(plain):,} characters, {_digest(plain.encode('utf-8'))}>"

    def note(self, text: str) -> str:
        """What the program prints."""
        return self._hiding.value(text) if self._hiding.hides_all and text else self.text(text)

    def _asked_message(self, error: BaseException) -> str:
        message = super()._asked_message(error)
        is_twisteds = not message and own_message(error) is not None
        return message if is_twisteds else self.note(message)

    # arguments

    def argument(self, name: str, value: Any) -> Shown:
        """The argument of this name, by which it may be a secret; an object that has no number yet by its type alone."""
        kind = type(value)
        if (kind is str or kind is bytes) and len(value) > LONGEST:
            value = value[:_LOOKED_OF_ARGUMENT]
        is_secret = self._secret_names.get(name)
        if is_secret is None:
            is_secret = self._secret_names[name] = self._hiding.names_secret(name)
        if is_secret:
            pair = self._bounded([name, value], self._of_argument)
            return pair[1] if type(pair) is list else pair
        return self._bounded(value, self._of_argument) if _is_list(kind) else self._of_argument(value)

    def _of_argument(self, value: object) -> Shown:
        known = self._named.get(id(value))
        return known[1] if known is not None else self._inside(value)

    def _inside(self, value: object) -> Shown:
        """A value in a dict, which is no list. An object is shown by its type alone: it may get a number later, and the dict is the same then."""
        kind = type(value)
        is_plain = kind in (bool, type(None)) or issubclass(kind, (int, str, bytes, float, complex))
        if is_plain:
            return self._leaf(value)
        name = clean(_name_of(kind))[:SHOWN]
        if kind is not dict or self._depth >= _DEEPEST_PAIRS:
            return f"<{name}>"
        self._depth += 1
        try:
            return f"<{name}{self._contents(value)}>"
        finally:
            self._depth -= 1

    # objects

    def named(self, thing: object) -> Any:
        """An object, by its type and a number; one of which no weak reference can be had, by its type and what it holds."""
        known = self._named.get(id(thing))
        if known is not None:
            return known[1]
        kind = clean(_name_of(type(thing)))[:LONGEST]
        if not _can_be_referred_to(thing):
            return f"<{kind}{self._contents(thing)}>"
        number = self._counts[kind] = self._counts.get(kind, 0) + 1
        self.bind(thing, f"<{kind} {number}{self._fields(thing)}>")
        return self._named[id(thing)][1]

    def _contents(self, thing: object) -> str:
        """How much something holds; of a dict a digest, too, that is the same for equal ones."""
        if isinstance(thing, dict):
            pairs = [list(pair) for pair in list(dict.items(thing))]
            whole = self._pairs(pairs, ": ") if len(pairs) <= _MOST_PAIRS else None
            if whole is not None:
                return f" {{{whole}}}"
            return f" of {dict.__len__(thing):,}, {_digest(compact(self._bounded(pairs, self._unnamed)).encode())}"
        if isinstance(thing, (set, frozenset)):
            length = set.__len__(thing) if isinstance(thing, set) else frozenset.__len__(thing)
            return f" of {length:,}"
        return ""

    def _fields(self, thing: object) -> str:
        """The attributes of a small object that has only plain ones, as they are when it is seen first. None of its code is called."""
        kind = type(thing)
        is_plain = self._states.get(kind)
        if is_plain is None:
            is_plain = self._states[kind] = not self._hiding.hides_all and _has_plain_state(kind)
        if not is_plain:
            return ""
        state: Any = object.__getattribute__(thing, "__dict__")
        if type(state) is not dict or not 0 < len(state) <= _MOST_FIELDS:
            return ""
        pairs = [[name, value] for name, value in list(state.items()) if type(name) is str and type(value) in _PLAIN]
        shown = self._pairs(pairs, "=") if len(pairs) == len(state) else None
        return f" {shown}" if shown is not None else ""

    def _pairs(self, pairs: List[List[Any]], between: str) -> Optional[str]:
        """Names and values as a text, without secrets; None if that isn't short, or all values are hidden."""
        if self._hiding.hides_all:
            return None
        shown = self._bounded(pairs, self._inside)
        if type(shown) is not list or not all(type(pair) is list and len(pair) == 2 for pair in shown):
            return None
        is_named = between == "="
        text = ", ".join(f"{name if is_named else written(name)}{between}{written(value)}" for name, value in shown)
        return text if len(text) <= _LONGEST_OF_PAIRS else None

    def _unnamed(self, value: object) -> Shown:
        """A value that is no list, an object by its type alone."""
        kind = type(value)
        is_plain = kind in (bool, type(None)) or issubclass(kind, (int, str, bytes, float, complex))
        return self._leaf(value) if is_plain else _name_of(kind)


def _itself(value: Any) -> Shown:
    return value


def _leaf_as_made(shown: Shown) -> Shown:
    return _as_member(shown) if type(shown) is dict else shown


def _as_member(failure: Dict[str, Any]) -> Shown:
    """A failure in a list: as the language has it, or as a text where it has none for it."""
    return failure if is_member(failure) else _as_text(failure)


def is_member(failure: Dict[str, Any]) -> bool:
    """Whether a value of a script may have a failure in a list that is shown so."""
    is_first = failure["fail"] == "FirstError"
    if not is_first or "sub" not in failure:
        return not is_first and "sub" not in failure
    index = failure["index"]
    return not failure["message"] and type(index) is int and index in INDEXES and is_member(failure["sub"])


def _as_text(failure: Dict[str, Any]) -> str:
    """A failure as a text: its class, and its message where it has one."""
    message = failure["message"]
    below = f" at {failure['index']} of {_as_text(failure['sub'])}" if "sub" in failure else ""
    return f"<{failure['fail']}{': ' if message else ''}{message}{below}>"


def _digest(data: bytes) -> str:
    """Eight digits that are the same for what is equal."""
    return f"{crc32(data):08x}"


def _pretends(kind: type) -> bool:
    """Whether objects of a class may say that they are of another one."""
    return any(
        "__class__" in base.__dict__ or type(base.__dict__.get("__getattribute__")) is FunctionType
        for base in kind.__mro__
        if base is not object
    )


def _has_plain_state(kind: type) -> bool:
    """Whether objects of a class have their attributes in a dict of Python's own."""
    found = [base.__dict__["__dict__"] for base in kind.__mro__ if "__dict__" in base.__dict__]
    return bool(found) and all(type(one) is GetSetDescriptorType for one in found)


def written(shown: Shown) -> str:
    """A value that is shown so, as Python has it."""
    if type(shown) is str:
        return shown if shown[:1] == "<" and shown[-1:] == ">" else repr(shown)
    if type(shown) is list:
        return f"[{', '.join(map(written, shown))}]"
    return f"<{shown['fail']}>" if type(shown) is dict else repr(shown)


def _can_be_referred_to(thing: object) -> bool:
    """Whether a weak reference to it can be had."""
    return getattr(type(thing), "__weakrefoffset__", 0) != 0


class _Full:
    """Shows a list in full. Raises _TooLarge where that isn't done."""

    def __init__(self, leaf: _Leaf, hiding: Hiding) -> None:
        self.leaf = leaf
        self.hiding = hiding
        self.left = MOST

    def of_list(self, value: Any, depth: int) -> Shown:
        """A list or a tuple."""
        kind = type(value)
        base = kind if kind is list or kind is tuple else _base_of(value)
        self.left -= base.__len__(value)
        if self.left < 0 or depth >= DEEPEST:
            raise _TooLarge
        return self.items(base.__getitem__(value, slice(None)), depth)

    def items(self, items: Any, depth: int) -> List[Shown]:
        """Items of a list, each of which may say that the next one is a secret: the first of two, and an option of a command."""
        if not self.hiding.hides_secrets:
            return [self.item(item, depth) for item in items]
        told: List[Shown] = []
        is_pair = len(items) == 2
        is_secret = False
        for item in items:
            told.append(self._hidden(item, depth) if is_secret else self.item(item, depth))
            is_secret = type(item) in _TEXTS and (is_pair or item[:1] in ("-", b"-")) and self.hiding.names_secret(item)
        return told

    def _hidden(self, value: Any, depth: int) -> Shown:
        """A value that is a secret, and the texts that it holds."""
        if type(value) in _TEXTS:
            return self.hiding.secret(value if type(value) is str else bytes.decode(value, "latin-1"))
        if type(value) in (list, tuple):
            for item in value[:FIRST]:
                if type(item) in _TEXTS:
                    self._hidden(item, depth)
        return self.hiding.secret(compact(self.item(value, depth)))

    def item(self, item: Any, depth: int) -> Shown:
        """An item of a list."""
        kind = type(item)
        if kind in _NO_LISTS or not _is_list(kind):
            return self.leaf(item)
        return self.of_list(item, depth + 1)


class _Brief(_Full):
    """Shows the first items of lists, and a list that comes again by the number that it has among those of the value."""

    def __init__(self, leaf: _Leaf, hiding: Hiding) -> None:
        super().__init__(leaf, hiding)
        self.met: Dict[int, int] = {}

    def of_list(self, value: Any, depth: int) -> Shown:
        """A list or a tuple."""
        base = _base_of(value)
        length = base.__len__(value)
        again = self.met.get(id(value))
        if again is not None:
            return f"<list {again} again>"
        if length:
            self.met[id(value)] = len(self.met) + 1
        if depth >= DEEPEST or (depth and self.left <= 0):
            return f"<list of {length:,}>"
        first = base.__getitem__(value, slice(FIRST))
        self.left -= len(first)
        told = self.items(first, depth)
        return told if length <= FIRST else [*told, f"<{length - FIRST:,} more>"]


#: classes of which it is known
_PLAIN = frozenset({int, str, bool, type(None), float, bytes})
_TEXTS = frozenset({str, bytes})
_NO_LISTS = frozenset({int, str, bool, type(None), float, bytes, dict, Failure})


def _is_list(kind: type) -> bool:
    return list in kind.__mro__ or tuple in kind.__mro__


def _base_of(value: Any) -> Any:
    return list if issubclass(type(value), list) else tuple
