"""The grammar of scripts, as tables: what each word takes, of which kinds, in which ranges. It is read off `language.json`."""

from __future__ import annotations

import enum
from typing import Any, Dict, FrozenSet, List, Tuple, Union

from ..language import LANGUAGE, Form, Word

_LIMITS = LANGUAGE.limits

#: the most bytes of a script of any version
WIDEST_BYTES = _LIMITS["bytes"]
MOST_CLASSES = _LIMITS["classes"]
MOST_POOLS = _LIMITS["pools"]
MOST_BODIES = _LIMITS["bodies"]
MOST_COOPERATORS = _LIMITS["cooperators"]
MOST_CALLERS = _LIMITS["callers"]
MOST_POSTS = _LIMITS["posts"]
MOST_JOBS = _LIMITS["jobs"]
DEEPEST = _LIMITS["depth"]
LONGEST_TIME = _LIMITS["time"]
DEFAULT_LIMIT = LANGUAGE.usual["limit"]

#: the first version in which a name may have `-`, `.` and `:`
MARKS_SINCE = 3

#: the keys that a script has to have, and for each version those that it may have
NEEDED_KEYS: FrozenSet[str] = frozenset(key.key for key in LANGUAGE.keys_of("script") if key.needed)
KEYS: Dict[int, FrozenSet[str]] = {
    version: frozenset(key.key for key in LANGUAGE.keys_of("script", version)) - NEEDED_KEYS
    for version in LANGUAGE.versions
}


def _numbers(form: Form) -> range:
    """The numbers from the least to the most."""
    return range(form["least"], form["most"] + 1)


def _of_key(of: str, name: str) -> Form:
    """What a key asks for."""
    return next(key.value for key in LANGUAGE.keys_of(of) if key.key == name)


def _of_word(word: str, place: int) -> Form:
    """What an argument of a word asks for, in its first form."""
    return next(row.arguments[place] for row in LANGUAGE.words if row.word == word)


LIMITS: Dict[int, range] = {
    version: range(0, LANGUAGE.most("limit", version) + 1) for version in LANGUAGE.versions
}
ADVANCES = _numbers(_of_word("advance", 0))
DRAINS = _numbers(_of_word("drain", 0))
#: how often a repeat has its events happen
REPEATS = _numbers(_of_word("repeat", 0))
DELAYS = _numbers(_of_word("later", 1))
INTERVALS = _numbers(_of_word("loop", 2))
#: the latest time that a call is due at
LATEST = LONGEST_TIME + DELAYS[-1]
TOKENS = _numbers(_of_word("semaphore", 1))
BOUNDS = _numbers(_of_word("queue", 1))
SUMS = _numbers(_of_word("sum", 0))
UNITS = _numbers(_of_key("cooperator", "units"))

#: the keys that a Cooperator has to have, and for each version those that it may have
COOPERATOR_NEEDS: FrozenSet[str] = frozenset(key.key for key in LANGUAGE.keys_of("cooperator") if key.needed)
COOPERATOR_KEYS: Dict[int, FrozenSet[str]] = {
    version: frozenset(key.key for key in LANGUAGE.keys_of("cooperator", version)) - COOPERATOR_NEEDS
    for version in LANGUAGE.versions
}
#: the rules by which tasks may take turns, by their words
FAIR, TWISTED = _of_key("cooperator", "turns")["words"]
#: the first version in which a Cooperator may say which rule is its own
TURN_RULES_SINCE = min(key.since for key in LANGUAGE.keys_of("cooperator") if key.key == "turns")
#: the places in lists
PLACES = _numbers(_of_word("throw", 0)["of"])
WORKERS = _numbers(_of_key("script", "pools")["of"]["parts"][1])

#: the first version in which the turns of a loop may have bodies of their own
TURNS_SINCE: int = _of_word("loop", 4)["since"]

#: the first version in which a member of an array of a value may be a failure
FAILURES_SINCE = min(key.since for key in LANGUAGE.keys_of("failure"))
#: the keys of a failure, and those of one of FirstError, which has another in it
FAILURE_KEYS: FrozenSet[str] = frozenset(key.key for key in LANGUAGE.keys_of("failure") if key.needed)
FIRST_ERROR_KEYS: FrozenSet[str] = frozenset(key.key for key in LANGUAGE.keys_of("failure"))
#: the places of children that a FirstError can say
INDEXES = _numbers(_of_key("failure", "index"))


class Kind(enum.Enum):
    """A kind of argument. A kind that names an object says whether the object is made or looked up."""

    NEW_DEFERRED = "a name for a Deferred that is made"
    DEFERRED = "a Deferred that exists, or @"
    DEFERREDS = "an array of Deferreds that exist"
    NEW_LOCK = "a name for a lock or semaphore that is made"
    LOCK = "a lock or semaphore"
    NEW_QUEUE = "a name for a queue that is made"
    QUEUE = "a queue"
    NEW_CALL = "a name for a delayed call that is made"
    CALL = "a delayed call"
    NEW_LOOP = "a name for a loop that is made"
    LOOP = "a loop"
    NEW_TASK = "a name for a task that is made"
    TASK = "a task"
    POOL = "a pool of threads, which the key `pools` declares"
    COOPERATOR = "a Cooperator that the key `cooperators` declares"
    NAMED_BODY = "a body that the key `bodies` declares"
    VALUE = "a value"
    BODY = "a body"
    BODIES = "an array of bodies"
    TURNS = "a body for all turns, or an array of one or more, which the turns have in order"
    STATEMENT = "a statement"
    STATEMENTS = "an array of statements"
    CLASS = "a class"
    CLASSES = "an array of classes"
    TEXT = "a text"
    FLAG = "true or false"
    LIST_FLAGS = "flags of a list"
    GATHER_FLAGS = "flags of a gathering"
    TOKENS = "a number of tokens"
    BOUND = "null or a bound"
    DELAY = "a delay"
    INTERVAL = "an interval"
    INTEGER = "an integer of 64 bits"
    SUM = "how far a sum goes"
    UNITS = "how many steps a tick has"
    PLACES = "an array of places in lists"
    ACTION = "an action"
    END = "how a body ends"
    WORK = "a work"
    OUTCOME = "what is expected of a Deferred"
    FAILURE = "a failure"


NUMBERS: Dict[Kind, range] = {
    Kind.TOKENS: TOKENS,
    Kind.DELAY: DELAYS,
    Kind.INTERVAL: INTERVALS,
    Kind.INTEGER: _numbers(_of_word("plus", 0)),
    Kind.SUM: SUMS,
    Kind.UNITS: UNITS,
}

FLAGS: Dict[Kind, FrozenSet[str]] = {
    Kind.LIST_FLAGS: frozenset(_of_word("list", 2)["of"]["words"]),
    Kind.GATHER_FLAGS: frozenset(_of_word("gather", 2)["of"]["words"]),
}

#: the kinds that name an object of a kind, or make one
MADE: FrozenSet[Kind] = frozenset(kind for kind in Kind if kind.name.startswith("NEW_"))
FOUND: FrozenSet[Kind] = frozenset(
    {
        Kind.DEFERRED,
        Kind.LOCK,
        Kind.QUEUE,
        Kind.CALL,
        Kind.LOOP,
        Kind.TASK,
        Kind.POOL,
        Kind.COOPERATOR,
        Kind.NAMED_BODY,
    }
)

Arguments = Tuple[Kind, ...]

#: a body: an object, or the name of one that the script declares
Body = Union[Dict[str, Any], str]

#: the kinds of what isn't a number, a name, an array or flags
_PLAIN: Dict[str, Kind] = {
    "text": Kind.TEXT,
    "value": Kind.VALUE,
    "boolean": Kind.FLAG,
    "bound": Kind.BOUND,
    "turns": Kind.TURNS,
}
#: the kinds of objects that an argument may be
_OBJECTS: Dict[str, Kind] = {"body": Kind.BODY, "failure": Kind.FAILURE}
_ARRAYS: Dict[Kind, Kind] = {
    Kind.DEFERRED: Kind.DEFERREDS,
    Kind.CLASS: Kind.CLASSES,
    Kind.BODY: Kind.BODIES,
    Kind.STATEMENT: Kind.STATEMENTS,
}
_WORDS: Dict[str, Kind] = {
    "action": Kind.ACTION,
    "leaving": Kind.END,
    "statement": Kind.STATEMENT,
    "work": Kind.WORK,
    "outcome": Kind.OUTCOME,
}


_NUMBERS: Dict[range, Kind] = {numbers: kind for kind, numbers in NUMBERS.items()}
_FLAGS: Dict[FrozenSet[str], Kind] = {flags: kind for kind, flags in FLAGS.items()}


def kind_of(form: Form) -> Kind:
    """The kind of an argument. Raises KeyError where the language has a form that isn't known here."""
    kind: str = form["type"]
    of: Any = form.get("of")
    if kind == "number":
        return _NUMBERS[_numbers(form)]
    if (kind, of) == ("found", "body"):
        return Kind.NAMED_BODY
    if kind in ("new", "found"):
        return Kind[f"{'NEW_' * (kind == 'new')}{of.upper()}"]
    if kind == "words":
        return _WORDS[of]
    if kind == "object":
        return _OBJECTS[of]
    if kind == "array" and of["type"] == "number":
        return Kind.PLACES
    if kind == "array":
        return _FLAGS[frozenset(of["words"])] if of["type"] == "flag" else _ARRAYS[kind_of(of)]
    return _PLAIN[kind]


def _table(place: str) -> Dict[str, List[Arguments]]:
    """The words that may stand at a place, each with the kinds of its arguments in each of its forms."""
    table: Dict[str, List[Arguments]] = {}
    for row in LANGUAGE.at(place):
        table.setdefault(row.word, []).append(_kinds(row))
    return table


def _kinds(row: Word) -> Arguments:
    return tuple(map(kind_of, row.arguments))


def _since(*places: str) -> Dict[Tuple[str, int], int]:
    """The first version that has each form of a word of these places: by the word, and how many arguments the form has."""
    return {(row.word, len(row.arguments)): row.since for place in places for row in LANGUAGE.at(place)}


ACTIONS = _table("action")
#: the first version that has a form of an action
ACTIONS_SINCE = _since("action")
ENDS = _table("end")
#: the first version that has an end
ENDS_SINCE = _since("end")
#: how an inline body may end
INLINE_ENDS = _table("leaving")
STATEMENTS = _table("statement")
#: the first version that has a statement
STATEMENTS_SINCE = _since("statement")
WORKS = _table("work")
#: the first version that has an event that is no action
EVENTS_SINCE = _since("event")
#: the event by which a script expects something, and what may be expected
EXPECTING: Dict[str, List[Arguments]] = {"expect": [_kinds(row) for row in LANGUAGE.at("event") if row.word == "expect"]}
OUTCOMES = _table("outcome")
#: the first version that has some form of an action, of an end or of this event
SINCE: Dict[str, int] = {
    word: min(since for (other, _), since in _since("action", "end", "event").items() if other == word)
    for word in (*ACTIONS, *ENDS, *EXPECTING)
}

#: the levels that a port can begin with, in order; each has the actions of those before it
_LEVELS: Tuple[str, ...] = (
    "core",
    "cancelling",
    "lists",
    "locks",
    "clock",
    "loops",
    "cooperator",
    "inline",
    "threads",
    "posts",
    "pools",
    "version-3",
)

#: the level of an action that takes an argument of this kind
_LEVEL_OF_KIND: Dict[Kind, str] = {
    Kind.DEFERREDS: "lists",
    Kind.NEW_LOCK: "locks",
    Kind.LOCK: "locks",
    Kind.NEW_QUEUE: "locks",
    Kind.QUEUE: "locks",
    Kind.NEW_CALL: "clock",
    Kind.CALL: "clock",
    Kind.DELAY: "clock",
    Kind.NEW_LOOP: "loops",
    Kind.LOOP: "loops",
    Kind.NEW_TASK: "cooperator",
    Kind.TASK: "cooperator",
    Kind.STATEMENTS: "inline",
    Kind.WORK: "threads",
    Kind.POOL: "pools",
    Kind.COOPERATOR: "version-3",
}

#: the level of an action whose arguments don't show it
_LEVEL_OF_WORD: Dict[str, str] = {
    "cancel": "cancelling",
    "maybe": "lists",
    "resetCall": "version-3",
    "delayCall": "version-3",
    "units": "version-3",
}


def level_of(word: str) -> str:
    """The level that adds an action: that of the latest kind among its arguments, unless it has one by its word."""
    kinds = [kind for form in ACTIONS[word] for kind in form]
    levels = [_LEVEL_OF_KIND.get(kind, "core") for kind in kinds]
    return max(levels + [_LEVEL_OF_WORD.get(word, "core")], key=_LEVELS.index)


#: the levels, each with the actions that it adds to those before it
LEVELS: Dict[str, Tuple[str, ...]] = {
    level: tuple(word for word in ACTIONS if level_of(word) == level) for level in _LEVELS
}


def actions_up_to(level: str) -> List[str]:
    """The actions of a level, after those of the levels before it."""
    names = list(LEVELS)
    below = names[: names.index(level) + 1]
    return [action for name in below for action in LEVELS[name]]


def has(level: str, part: str) -> bool:
    """Whether a level has what another one adds: it is that one, or comes after it."""
    names = list(LEVELS)
    return names.index(level) >= names.index(part)


#: the level that adds the scripts of a version
_LEVEL_OF_VERSION: Dict[int, str] = {1: _LEVELS[0], 2: "pools", 3: "version-3"}


def has_version(level: str, version: int) -> bool:
    """Whether random scripts of a level may be of a version."""
    return has(level, _LEVEL_OF_VERSION[version])
