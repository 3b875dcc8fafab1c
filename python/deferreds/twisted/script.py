"""Reads scripts, and refuses with the least reason that holds, as the program does."""

from __future__ import annotations

import json
import math
import re
from itertools import accumulate
from typing import AbstractSet, Any, Dict, List, Mapping, NamedTuple, NoReturn, Optional, Sequence, Tuple

from ..language import LANGUAGE
from ..repeats import written_out
from . import grammar
from .grammar import Kind

_REST = LANGUAGE.limits["name"] - 1
_NAME = re.compile(rf"[A-Za-z0-9_][A-Za-z0-9_]{{0,{_REST}}}", re.ASCII)

#: the form of names from the version on that has marks in them
_MARKED_NAME = re.compile(rf"[A-Za-z0-9_][A-Za-z0-9_.:-]{{0,{_REST}}}", re.ASCII)

#: the first versions of words that every version has
_ALWAYS: Mapping[Tuple[str, int], int] = {}

#: a refusal: its number and its name
Reason = Tuple[int, str]


def _reason(name: str) -> Reason:
    return LANGUAGE.refusals[name], name


TOO_LONG = _reason("TooLong")
NOT_JSON = _reason("NotJson")
BAD_VERSION = _reason("BadVersion")
BAD_SHAPE = _reason("BadShape")
TOO_MANY = _reason("TooMany")
BAD_NAME = _reason("BadName")
BAD_CLASS = _reason("BadClass")
BAD_POOL = _reason("BadPool")
BAD_BODY = _reason("BadBody")
BAD_COOPERATOR = _reason("BadCooperator")


class Refused(Exception):
    """A script that isn't accepted, with the number and the name of the least reason."""

    def __init__(self, reason: Reason, where: str = "") -> None:
        super().__init__(f"script refused: {reason[0]} {reason[1]}")
        self.reason = reason
        #: what of the script it is, where that is known
        self.where = where


class Settings(NamedTuple):
    """Those of a Cooperator: how many steps a tick has, how long it is to the next, and by which rule tasks take turns."""

    units: int
    delay: int
    turns: str


def _settings(said: Mapping[str, Any]) -> Settings:
    """What a Cooperator of a script says, with what stands where a key is left out."""
    return Settings(said["units"], said["delay"], said.get("turns", grammar.FAIR))


class Script:
    """A script that is accepted: its keys, with what stands where one is left out."""

    def __init__(self, root: Mapping[str, Any]) -> None:
        self.root = root
        #: its events, in which repeats are written out
        self.events: List[List[Any]] = written_out(root["events"])
        self.limit: int = root.get("limit", grammar.DEFAULT_LIMIT)
        self.classes: List[List[str]] = root.get("classes", [])
        #: the Cooperator that has no name, and those by name
        self.cooperator = _settings(root.get("cooperator", LANGUAGE.usual))
        self.cooperators = {name: _settings(said) for name, said in root.get("cooperators", [])}
        #: the names of the pools; no line shows how many workers one has
        self.pools: List[str] = [name for name, _ in root.get("pools", [])]
        self.bodies: Dict[str, grammar.Body] = dict(root.get("bodies", []))
        self.callers: List[List[grammar.Body]] = root.get("callers", [])


def read(data: bytes, names_of_classes: Sequence[str]) -> Script:
    """The script that these bytes say, where these are the classes that need no declaring."""
    root = _root(data)
    if not _has_version(root):
        raise Refused(BAD_VERSION)
    found = _Shape(root["version"]).root(root)
    _refuse_counts(root, found)
    _refuse_names(root, found)
    _refuse_classes(root, found, names_of_classes)
    _refuse_twice_or_unknown(root.get("pools", []), found.pools, BAD_POOL)
    _refuse_twice_or_unknown(root.get("bodies", []), found.bodies, BAD_BODY)
    _refuse_twice_or_unknown(root.get("cooperators", []), found.cooperators, BAD_COOPERATOR)
    return Script(root)


def _root(data: bytes) -> Any:
    """What the bytes say, which may be long only where its version allows it."""
    if len(data) > grammar.WIDEST_BYTES:
        raise Refused(TOO_LONG)
    is_long = len(data) > LANGUAGE.most("bytes", 1)
    try:
        root = _json(data)
    except Refused as refused:
        raise Refused(TOO_LONG) if is_long else refused
    if is_long and not (_has_version(root) and len(data) <= LANGUAGE.most("bytes", root["version"])):
        raise Refused(TOO_LONG)
    return root


def _has_version(root: Any) -> bool:
    """Whether it is an object that says a version which there is."""
    return isinstance(root, dict) and _is_integer(root.get("version")) and root["version"] in grammar.KEYS


# JSON


def _json(data: bytes) -> Any:
    """What the bytes say in JSON, where a number that isn't an integer of 64 bits is a float."""
    try:
        text = data.decode("utf-8", "strict")
        if depth(text) > grammar.DEEPEST:
            raise Refused(NOT_JSON)
        value = json.loads(
            text,
            parse_int=_integer,
            parse_float=_float,
            parse_constant=_not_json,
            object_pairs_hook=_pairs,
        )
        _refuse_halves(value)
    except (ValueError, RecursionError):
        raise Refused(NOT_JSON) from None
    return value


def _not_json(text: str) -> NoReturn:
    raise Refused(NOT_JSON)


def _float(text: str) -> float:
    number = float(text)
    if math.isinf(number):
        raise Refused(NOT_JSON)
    return number


def _integer(text: str) -> Any:
    if text == "-0" or len(text) > 20 or int(text) not in grammar.NUMBERS[Kind.INTEGER]:
        return _float(text)
    return int(text)


#: what a text has beside the marks by which arrays and objects begin and end
_BESIDE = re.compile(r'"(?:[^"\\]|\\.)*"|[^\[\]{}"]+|"', re.DOTALL)
_DEEPER = {"[": 1, "{": 1, "]": -1, "}": -1}


def depth(text: str) -> int:
    """How deep arrays and objects are nested in a text."""
    marks = _BESIDE.sub("", text)
    return max(accumulate(map(_DEEPER.__getitem__, marks)), default=0)


def _pairs(pairs: List[Tuple[str, Any]]) -> Dict[str, Any]:
    """An object, in which a key that is given twice has its last value; each value has to be readable."""
    for key, value in pairs:
        _refuse_halves([key, value])
    return dict(pairs)


def _refuse_halves(value: Any) -> None:
    """Half a pair of surrogates is no character, and raises here."""
    if isinstance(value, str):
        value.encode("utf-8")
    elif isinstance(value, list):
        for item in value:
            _refuse_halves(item)


def _is_integer(value: Any) -> bool:
    return type(value) is int


# shape


class _Found:
    """What is looked at once the shape is good."""

    def __init__(self) -> None:
        #: names of objects that are made or can't be `@`
        self.names: List[str] = []
        #: names of Deferreds that exist
        self.deferreds: List[str] = []
        #: names of pools and of declared bodies that are used
        self.pools: List[str] = []
        self.bodies: List[str] = []
        #: names of Cooperators that are used
        self.cooperators: List[str] = []
        self.classes: List[str] = []
        self.advanced = 0


class _Shape:
    """Refuses what hasn't the shape of a script, and finds its names and classes."""

    def __init__(self, version: int) -> None:
        self.found = _Found()
        self._version = version

    def root(self, root: Dict[str, Any]) -> _Found:
        """What a whole script has."""
        self._keys(root, grammar.NEEDED_KEYS, grammar.KEYS[self._version])
        self._number(root.get("limit", 0), grammar.LIMITS[self._version])
        for pair in self._array(root.get("classes", [])):
            self._texts(pair, 2)
        if "cooperator" in root:
            self._cooperator(root["cooperator"])
        for pair in self._array(root.get("cooperators", [])):
            self._named_cooperator(pair)
        for pool in self._array(root.get("pools", [])):
            self._pool(pool)
        for pair in self._array(root.get("bodies", [])):
            self._named_body(pair)
        for posts in self._array(root.get("callers", [])):
            self._bodies(posts)
        for event in self._array(root["events"]):
            self._event(event)
        return self.found

    def _cooperator(self, value: Any) -> None:
        self._keys(value, grammar.COOPERATOR_NEEDS, grammar.COOPERATOR_KEYS[self._version])
        self._number(value["units"], grammar.UNITS)
        self._number(value["delay"], grammar.INTERVALS)
        if value.get("turns", grammar.FAIR) not in (grammar.FAIR, grammar.TWISTED):
            self._refuse(value)

    def _named_cooperator(self, value: Any) -> None:
        if len(self._array(value)) != 2:
            self._refuse(value)
        self.found.names.append(self._text(value[0]))
        self._cooperator(value[1])

    def _pool(self, value: Any) -> None:
        if len(self._array(value)) != 2:
            self._refuse(value)
        self.found.names.append(self._text(value[0]))
        self._number(value[1], grammar.WORKERS)

    def _named_body(self, value: Any) -> None:
        if len(self._array(value)) != 2:
            self._refuse(value)
        self.found.names.append(self._text(value[0]))
        self._body(value[1])

    def _event(self, event: Any, times: int = 1) -> None:
        """An event, which happens so many times."""
        word = self._word(event)
        if word in ("advance", "drain"):
            if len(event) != 2:
                self._refuse(event)
            self._number(event[1], grammar.ADVANCES if word == "advance" else grammar.DRAINS)
            self.found.advanced += event[1] * times if word == "advance" else 0
        elif word == "repeat":
            self._repeat(event, times)
        elif word == "expect":
            self._said(event, grammar.EXPECTING, grammar.EVENTS_SINCE)
        else:
            self._said(event, grammar.ACTIONS, grammar.ACTIONS_SINCE)

    def _repeat(self, repeat: Any, times: int) -> None:
        """A repeat, which happens so many times."""
        if grammar.EVENTS_SINCE["repeat", 2] > self._version or len(repeat) != 3:
            self._refuse(repeat)
        self._number(repeat[1], grammar.REPEATS)
        for event in self._array(repeat[2]):
            self._event(event, times * repeat[1])

    def _said(
        self, said: Any, table: Dict[str, List[grammar.Arguments]], since: Mapping[Tuple[str, int], int] = _ALWAYS
    ) -> None:
        """An array of a word of the table, a form of which a version may be the first to have, and what it takes."""
        word = self._word(said)
        if since.get((word, len(said) - 1), self._version) > self._version:
            self._refuse(said)
        for arguments in table.get(word, []):
            if len(arguments) == len(said) - 1:
                for kind, value in zip(arguments, said[1:]):
                    self._argument(kind, value)
                return
        self._refuse(said)

    def _argument(self, kind: Kind, value: Any) -> None:
        if kind in grammar.NUMBERS:
            self._number(value, grammar.NUMBERS[kind])
        elif kind in grammar.FLAGS:
            self._flags(value, grammar.FLAGS[kind])
        elif kind in grammar.MADE or kind in grammar.FOUND:
            names = self.found.deferreds if kind is Kind.DEFERRED else self.found.names
            names.append(self._text(value))
            if kind is Kind.POOL:
                self.found.pools.append(value)
            if kind is Kind.NAMED_BODY:
                self.found.bodies.append(value)
            if kind is Kind.COOPERATOR:
                self.found.cooperators.append(value)
        else:
            self._other(kind, value)

    def _other(self, kind: Kind, value: Any) -> None:
        if kind is Kind.DEFERREDS:
            self.found.deferreds.extend(self._texts(value))
        elif kind is Kind.VALUE:
            self._value(value)
        elif kind is Kind.BODY:
            self._body(value)
        elif kind is Kind.BODIES:
            self._bodies(value)
        elif kind is Kind.TURNS:
            self._turns(value)
        elif kind is Kind.STATEMENTS:
            for statement in self._array(value):
                self._said(statement, grammar.STATEMENTS, grammar.STATEMENTS_SINCE)
        elif kind is Kind.PLACES:
            for place in self._array(value):
                self._number(place, grammar.PLACES)
        elif kind is Kind.CLASS:
            self.found.classes.append(self._text(value))
        elif kind is Kind.CLASSES:
            self.found.classes.extend(self._texts(value))
        elif kind is Kind.TEXT:
            self._text(value)
        elif kind is Kind.FLAG:
            if not isinstance(value, bool):
                self._refuse(value)
        elif kind is Kind.BOUND:
            if value is not None:
                self._number(value, grammar.BOUNDS)
        elif kind is Kind.ACTION:
            self._said(value, grammar.ACTIONS, grammar.ACTIONS_SINCE)
        elif kind is Kind.END:
            self._said(value, grammar.INLINE_ENDS, grammar.ENDS_SINCE)
        elif kind is Kind.WORK:
            self._said(value, grammar.WORKS)
        elif kind is Kind.OUTCOME:
            self._said(value, grammar.OUTCOMES)
        elif kind is Kind.FAILURE:
            self._failure(value)
        else:
            raise AssertionError(kind)

    def _bodies(self, value: Any) -> None:
        for body in self._array(value):
            self._body(body)

    def _turns(self, value: Any) -> None:
        """One body for all turns of a loop, or an array of one or more."""
        if isinstance(value, list) and value and grammar.TURNS_SINCE <= self._version:
            self._bodies(value)
        else:
            self._body(value)

    def _body(self, body: Any) -> None:
        if isinstance(body, str) and grammar.SINCE["run"] <= self._version:
            self.found.names.append(body)
            self.found.bodies.append(body)
            return
        self._keys(body, set(), {"do", "end"} | self._comment)
        for action in self._array(body.get("do", [])):
            self._said(action, grammar.ACTIONS, grammar.ACTIONS_SINCE)
        if "end" in body:
            self._said(body["end"], grammar.ENDS, grammar.ENDS_SINCE)

    def _value(self, value: Any) -> None:
        """A value, which is no failure."""
        if isinstance(value, dict):
            self._refuse(value)
        self._member(value)

    def _member(self, value: Any) -> None:
        """A value, or what may be a member of an array of one."""
        if isinstance(value, list):
            for item in value:
                self._member(item)
        elif isinstance(value, dict):
            self._failure(value)
        elif value is not None and not isinstance(value, (bool, str)):
            self._number(value, grammar.NUMBERS[Kind.INTEGER])

    def _failure(self, value: Any) -> None:
        """A failure in a value, as the journal shows it."""
        if self._version < grammar.FAILURES_SINCE or not isinstance(value, dict):
            self._refuse(value)
        is_first = value.get("fail") == "FirstError"
        self._keys(value, grammar.FIRST_ERROR_KEYS if is_first else grammar.FAILURE_KEYS, set())
        self.found.classes.append(self._text(value["fail"]))
        message = self._text(value["message"])
        if is_first:
            if message:
                self._refuse(value)
            self._number(value["index"], grammar.INDEXES)
            self._failure(value["sub"])

    def _flags(self, value: Any, known: frozenset[str]) -> None:
        for flag in self._texts(value):
            if flag not in known:
                self._refuse(value)

    @property
    def _comment(self) -> AbstractSet[str]:
        """The key of a comment, where the version has one in each object."""
        return grammar.KEYS[self._version] & {"comment"}

    def _keys(self, value: Any, needed: AbstractSet[str], known: AbstractSet[str]) -> None:
        """Refuses what is no object of these keys, and a comment that is no text."""
        if not isinstance(value, dict) or not needed <= value.keys() <= needed | known:
            self._refuse(value)
        self._text(value.get("comment", ""))

    def _number(self, value: Any, numbers: range) -> None:
        if not _is_integer(value) or value not in numbers:
            self._refuse(value)

    def _array(self, value: Any) -> List[Any]:
        if not isinstance(value, list):
            self._refuse(value)
        return value

    def _text(self, value: Any) -> str:
        if not isinstance(value, str):
            self._refuse(value)
        return value

    def _texts(self, value: Any, count: Optional[int] = None) -> List[str]:
        texts = [self._text(item) for item in self._array(value)]
        if count is not None and len(texts) != count:
            self._refuse(value)
        return texts

    def _word(self, said: Any) -> str:
        if not isinstance(said, list) or not said:
            self._refuse(said)
        return self._text(said[0])

    def _refuse(self, value: Any) -> NoReturn:
        raise Refused(BAD_SHAPE, json.dumps(value)[:200])


# counts, names, classes, pools


def _refuse_counts(root: Mapping[str, Any], found: _Found) -> None:
    callers = root.get("callers", [])
    if (
        nodes(root) + added(root["events"]) > LANGUAGE.most("nodes", root["version"])
        or len(root.get("classes", [])) > grammar.MOST_CLASSES
        or len(root.get("pools", [])) > grammar.MOST_POOLS
        or len(root.get("bodies", [])) > grammar.MOST_BODIES
        or len(root.get("cooperators", [])) > grammar.MOST_COOPERATORS
        or len(callers) > grammar.MOST_CALLERS
        or any(len(posts) > grammar.MOST_POSTS for posts in callers)
        or found.advanced > grammar.LONGEST_TIME
    ):
        raise Refused(TOO_MANY)


def nodes(value: Any) -> int:
    """How many arrays, objects and scalars a JSON value has."""
    if isinstance(value, dict):
        return 1 + sum(map(nodes, value.values()))
    if isinstance(value, list):
        return 1 + sum(map(nodes, value))
    return 1


def added(events: Sequence[Any]) -> int:
    """How many nodes the repeats among these events add."""
    total = 0
    for event in events:
        if event[0] == "repeat":
            inside = added(event[2])
            total += inside + max(0, event[1] - 1) * (_weight(event[2]) + inside)
    return total


def _weight(value: Any) -> int:
    """How many nodes a value has where it is repeated: a text has one more for each 64 bytes."""
    if isinstance(value, dict):
        return 1 + sum(map(_weight, value.values()))
    if isinstance(value, list):
        return 1 + sum(map(_weight, value))
    return 1 + len(value.encode()) // 64 if isinstance(value, str) else 1


def is_name(text: str, version: int) -> bool:
    """Whether a text has the form of the names of a version."""
    form = _NAME if version < grammar.MARKS_SINCE else _MARKED_NAME
    return form.fullmatch(text) is not None


def _refuse_names(root: Mapping[str, Any], found: _Found) -> None:
    declared = [name for name, _ in root.get("classes", [])]
    existing = [name for name in found.deferreds if name != "@"]
    for name in found.names + existing + declared:
        if not is_name(name, root["version"]):
            raise Refused(BAD_NAME, name)


def _refuse_classes(root: Mapping[str, Any], found: _Found, built_in: Sequence[str]) -> None:
    since = LANGUAGE.classes_since
    known = {name for name in built_in if since.get(name, 1) <= root["version"]}
    for name, parent in root.get("classes", []):
        if name in known or parent not in known:
            raise Refused(BAD_CLASS, name)
        known.add(name)
    for name in found.classes:
        if name not in known:
            raise Refused(BAD_CLASS, name)


def _refuse_twice_or_unknown(pairs: Sequence[Sequence[Any]], used: Sequence[str], reason: Reason) -> None:
    """Refuses what is declared twice, and what is used and not declared."""
    declared = [name for name, _ in pairs]
    if len(set(declared)) < len(declared):
        raise Refused(reason)
    for name in used:
        if name not in declared:
            raise Refused(reason, name)
