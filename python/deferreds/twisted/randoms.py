"""Random scripts, by a seed and a level: each is the same on every machine."""

from __future__ import annotations

import json
import random
from functools import lru_cache
from itertools import count, islice
from pathlib import Path
from typing import Any, Callable, Dict, Iterator, List, Optional, Set, Tuple, Union

from . import grammar
from .grammar import Kind

#: how often each action is taken, where it isn't once
_WEIGHTS: Dict[str, int] = {
    "deferred": 5,
    "callback": 8,
    "errback": 4,
    "addCallback": 8,
    "addErrback": 3,
    "addBoth": 6,
    "addCallbacks": 2,
    "cancel": 4,
    "chain": 2,
    "pause": 2,
    "unpause": 2,
    "acquire": 3,
    "release": 3,
    "put": 3,
    "get": 3,
    "later": 3,
    "resetCall": 8,
    "delayCall": 6,
    "addTimeout": 3,
    "loop": 2,
    "cooperate": 4,
    "resumeTask": 2,
    "inline": 6,
    "thread": 3,
    "threadIn": 3,
    "cooperateIn": 6,
    "unitsIn": 1,
    "stopCooperator": 4,
}

_NAMES: Dict[str, str] = {
    "DEFERRED": "abcde",
    "LOCK": "lm",
    "QUEUE": "qr",
    "CALL": "cd",
    "LOOP": "pq",
    "TASK": "tuv",
}

_POOLS = ("io", "net", "a")

#: the Cooperators that a script may declare
_COOPERATORS = ("w", "x", "t")

#: the words that only a script with a declared Cooperator has
_IN_COOPERATORS = ("cooperateIn", "unitsIn", "stopCooperator")

#: what a script with declared Cooperators may begin with
_BEGUN = ("cooperateIn", "cooperateIn", "cooperateIn")

#: by which rule tasks take turns in a Cooperator of version 3; None: it doesn't say
_TURNS = (None, grammar.FAIR, grammar.TWISTED, grammar.TWISTED)

#: the bodies that a script may declare
_BODIES = ("f", "g", "h")

#: what the names of a script with marks end with
_MARKS = "-1.a:"

#: events that some scripts have, by what happens in them. `$a` is a name, and `$W` that of a Cooperator; `?value`, `?body`, `?end`,
#: `?leaving`, `?name` and `?action` stand for a random value, body, END, END of an inline body, name of a Deferred, and action
SCENES = Path(__file__).resolve().parent / "data" / "scenes.json"

Scene = List[List[Any]]

_CLASSES = ("ValueError", "TypeError", "CancelledError", "Exception", "Mine", "AlreadyCalledError")
_TEXTS = ("x", "", "no")
_DEEPEST = 3


@lru_cache(maxsize=None)
def scenes(path: Path = SCENES) -> Dict[str, Scene]:
    """The scenes of a file."""
    found: Dict[str, Scene] = json.loads(path.read_text(encoding="utf-8"))
    return found


class Scripts:
    """Makes random scripts of a level."""

    def __init__(self, seed: int, level: str) -> None:
        self._seed = seed
        self._level = level
        self._random = random.Random()
        self._known = grammar.actions_up_to(level)
        self._version_of = 1
        self._pools: List[str] = []
        self._cooperators: List[str] = []
        self._named: List[str] = []
        self._paused: List[str] = []
        self._is_third = False
        self._marks = ""
        self._makers: Dict[Kind, Callable[[int], Any]] = self._kinds()
        self._holes: Dict[str, Callable[[], Any]] = {
            "?value": lambda: self._value(1),
            "?body": lambda: self._body(1),
            "?end": lambda: self._end(grammar.ENDS, 1),
            "?leaving": lambda: self._end(grammar.INLINE_ENDS, 1),
            "?name": lambda: self._name("DEFERRED", 0),
            "?action": lambda: self._action(1),
        }

    def _take_words(self, version: int) -> None:
        """Has actions be those of the level that a version has; only with a pool or a Cooperator is one used."""
        self._version_of = version
        known = [word for word in self._known if grammar.SINCE[word] <= version]
        words = [word for word in known if word != "threadIn" or self._pools]
        words = [word for word in words if word not in _IN_COOPERATORS or self._cooperators]
        self._words = words
        self._weights = [_WEIGHTS.get(word, 1) for word in words]
        self._shallow = [word for word in words if not _holds_bodies(word)]

    def script(self, number: int) -> str:
        """The script of this number."""
        self._random.seed(f"{self._seed} {self._level} {number}")
        self._paused = []
        root: Dict[str, Any] = {"version": 1, "classes": [["Mine", "ValueError"]]}
        if self._has("pools"):
            self._version(root)
        if self._has("version-3"):
            self._third(root)
        self._take_words(root["version"])
        if self._named:
            root["bodies"] = [[name, self._body(0)] for name in self._named]
        if self._one_in(5):
            root["limit"] = self._random.randint(0, 60)
        if "cooperate" in self._words:
            root["cooperator"] = self._cooperator()
        if self._cooperators:
            root["cooperators"] = [[name, self._cooperator()] for name in self._cooperators]
        if self._has("posts"):
            posts = [self._bodies(0) for _ in range(self._random.randint(1, 3))]
            root["callers"] = posts
        events = self._beginning()
        events += [self._event() for _ in range(self._random.randint(3, 16))]
        if self._one_in(2):
            events += self._scene()
            events += [self._event() for _ in range(self._random.randint(0, 3))]
        if self._is_third and self._one_in(2):
            events += [self._expect() for _ in range(3)]
        root["events"] = self._repeated(events) if self._is_third and self._one_in(3) else events
        return json.dumps(root, separators=(",", ":"))

    def some(self, number: int, version: Optional[int] = None, turns: Optional[str] = None) -> Iterator[Tuple[int, str]]:
        """So many scripts, each with its own number: the first ones, or the first of a version that the level has.

        `turns`: only scripts whose tasks, if they have any, all take turns by this rule.
        """
        numbered = ((each, self.script(each)) for each in count())
        fitting = (pair for pair in numbered if version is None or f'"version":{version},' in pair[1])
        return islice((pair for pair in fitting if turns is None or turns_of(pair[1]) == {turns}), number)

    def _version(self, root: Dict[str, Any]) -> None:
        """The version of the script, and its pools where it has some."""
        self._pools = self._random.sample(_POOLS, self._random.randint(0, 3))
        if self._pools or self._one_in(2):
            root["version"] = 2
        if self._pools:
            root["pools"] = [[name, self._random.randint(0, 2)] for name in self._pools]

    def _third(self, root: Dict[str, Any]) -> None:
        """Has half of the scripts be of version 3, with marks in the names of some, comments, and failures in values."""
        self._is_third = self._one_in(2)
        self._marks = _MARKS if self._is_third and self._one_in(2) else ""
        self._named, self._cooperators = [], []
        if self._is_third:
            root["version"] = 3
            self._named = self._random.sample(_BODIES, self._random.randint(0, 3))
            self._cooperators = self._random.sample(_COOPERATORS, self._random.randint(0, 2))
            self._commented(root)

    def _cooperator(self) -> Dict[str, Any]:
        """How many steps a tick has, how long it is to the next, and in most of version 3 by which rule tasks take turns."""
        made: Dict[str, Any] = {"units": self._random.randint(1, 4), "delay": self._random.randint(1, 3)}
        turns = self._random.choice(_TURNS) if self._is_third else None
        if turns is not None:
            made["turns"] = turns
        return self._commented(made)

    def _commented(self, keyed: Dict[str, Any]) -> Dict[str, Any]:
        """An object, to which a comment is added in some scripts."""
        if self._is_third and self._one_in(3):
            keyed["comment"] = self._random.choice(_TEXTS)
        return keyed

    def _beginning(self) -> List[List[Any]]:
        """Deferreds, and some of what else the level has, so that names are bound."""
        events: List[List[Any]] = [
            ["deferred", name + self._marks]
            for name in self._random.sample("abcde", self._random.randint(2, 5))
        ]
        for word in ("lock", "semaphore", "queue", "cooperate", "cooperate", *_BEGUN, "later", "loop"):
            if word in self._words and self._one_in(3):
                events.append([word, *self._arguments(grammar.ACTIONS[word], 0)])
        if self._is_third and self._one_in(2):
            # calls to be reset, beside what else is due then
            events += [["later", name + self._marks, self._delay(), self._body(0)] for name in _NAMES["CALL"]]
        return events

    def _scene(self) -> List[List[Any]]:
        """A scene that the level and the version have, with some random events in it."""
        known = [scene for scene in scenes().values() if all(map(self._has_word, _words_of(scene)))]
        events: List[List[Any]] = []
        for event in self._random.choice(known) if known else ():
            events.append(self._filled(event))
            if self._one_in(5):
                events.append(self._event())
        return events

    def _has_word(self, word: str) -> bool:
        """Whether an action, an end or a statement, or a form of one, may be used."""
        name, _, form = word.partition(" ")
        if name == "advance":
            return self._has("clock")
        if name in grammar.ACTIONS:
            return name in self._words and grammar.ACTIONS_SINCE.get((name, int(form)), 1) <= self._version_of
        return max(_SINCE.get(name, 1), grammar.TURNS_SINCE if name == "turns" else 1) <= self._version_of

    def _filled(self, part: Any) -> Any:
        """A part of a scene, with names and random parts in the place of its signs."""
        if isinstance(part, list):
            return [self._filled(each) for each in part]
        if isinstance(part, dict):
            return {key: self._filled(each) for key, each in part.items()}
        if part == "$W":
            return self._random.choice(self._cooperators)
        if isinstance(part, str) and part.startswith("$"):
            return part[1:] + self._marks
        make = self._holes.get(part) if isinstance(part, str) else None
        return part if make is None else make()

    def _one_in(self, number: int) -> bool:
        return self._random.randrange(number) == 0

    def _has(self, part: str) -> bool:
        return grammar.has(self._level, part)

    def _event(self) -> List[Any]:
        if self._has("clock") and self._one_in(3):
            return ["advance", self._random.randint(0, 5)]
        if self._has("posts") and self._one_in(5):
            return ["drain", self._random.randint(0, 4)]
        return self._action(0)

    def _repeated(self, events: List[List[Any]]) -> List[List[Any]]:
        """The events, of which some that follow one another repeat, and in half of the scripts some of these again."""
        first = self._random.randrange(len(events))
        last = first + self._random.randint(1, 4)
        inside = events[first:last]
        if self._one_in(2):
            inside = self._repeated(inside)
        return [*events[:first], ["repeat", self._random.randint(0, 3), inside], *events[last:]]

    def _expect(self) -> List[Any]:
        """An event that expects something: what a Deferred has in few runs, if it is a value."""
        return ["expect", self._name("DEFERRED", 0), self._end(grammar.OUTCOMES, 0)]

    def _action(self, depth: int) -> List[Any]:
        if depth >= _DEEPEST:
            word = self._random.choice(self._shallow)
        else:
            word = self._random.choices(self._words, self._weights)[0]
        if word == "unpause" and not self._one_in(12):
            return self._unpause(depth)
        action = [word, *self._arguments(self._forms(word), depth)]
        if word == "pause":
            self._paused.append(action[1])
        return action

    def _forms(self, word: str) -> List[grammar.Arguments]:
        """The forms of an action that the version of the script has."""
        since = grammar.ACTIONS_SINCE
        return [form for form in grammar.ACTIONS[word] if since[word, len(form)] <= self._version_of]

    def _unpause(self, depth: int) -> List[Any]:
        """An `unpause` of what was paused before, or else a `pause`."""
        if self._paused:
            return ["unpause", self._paused.pop()]
        self._paused.append(self._name("DEFERRED", depth))
        return ["pause", self._paused[-1]]

    def _arguments(self, choices: List[grammar.Arguments], depth: int) -> List[Any]:
        return [self._makers[kind](depth) for kind in self._random.choice(choices)]

    # arguments

    def _kinds(self) -> Dict[Kind, Callable[[int], Any]]:
        makers: Dict[Kind, Callable[[int], Any]] = {
            Kind.DEFERREDS: lambda depth: self._several(lambda: self._name("DEFERRED", depth)),
            Kind.VALUE: lambda depth: self._value(depth),
            Kind.BODY: self._body,
            Kind.BODIES: self._bodies,
            Kind.TURNS: self._turns,
            Kind.STATEMENTS: self._statements,
            Kind.CLASS: lambda depth: self._random.choice(_CLASSES),
            Kind.CLASSES: lambda depth: self._several(lambda: self._random.choice(_CLASSES)),
            Kind.TEXT: lambda depth: self._random.choice(_TEXTS),
            Kind.FLAG: lambda depth: self._one_in(2),
            Kind.TOKENS: lambda depth: self._random.randint(1, 3),
            Kind.BOUND: lambda depth: self._random.choice((None, 0, 1, 2)),
            Kind.DELAY: lambda depth: self._delay(),
            Kind.INTERVAL: lambda depth: self._random.randint(1, 4),
            Kind.INTEGER: lambda depth: self._random.randint(-1, 3),
            Kind.SUM: lambda depth: self._random.randint(0, 9),
            Kind.UNITS: lambda depth: self._random.randint(1, 4),
            Kind.PLACES: lambda depth: self._random.choice(([0], [1], [0, 1], [1, 1], [])),
            Kind.ACTION: self._action,
            Kind.END: lambda depth: self._end(grammar.INLINE_ENDS, depth),
            Kind.WORK: lambda depth: self._end(grammar.WORKS, depth),
            Kind.OUTCOME: lambda depth: self._end(grammar.OUTCOMES, depth),
            Kind.FAILURE: lambda depth: self._failure(),
        }
        for kind in (*grammar.MADE, *grammar.FOUND):
            makers[kind] = self._naming(kind)
        makers[Kind.POOL] = lambda depth: self._random.choice(self._pools)
        makers[Kind.COOPERATOR] = lambda depth: self._random.choice(self._cooperators)
        makers[Kind.NAMED_BODY] = lambda depth: self._random.choice(self._named)
        for kind, flags in grammar.FLAGS.items():
            makers[kind] = self._flagging(sorted(flags))
        return makers

    def _delay(self) -> int:
        return self._random.randint(0, 4)

    def _naming(self, kind: Kind) -> Callable[[int], str]:
        made = kind in grammar.MADE
        name = kind.name.removeprefix("NEW_")
        return lambda depth: self._name(name, 0 if made else depth)

    def _name(self, kind: str, depth: int) -> str:
        if kind == "DEFERRED" and depth > 0 and self._one_in(5):
            return "@"
        return self._random.choice(_NAMES[kind]) + self._marks

    def _flagging(self, flags: List[str]) -> Callable[[int], List[str]]:
        return lambda depth: [flag for flag in flags if self._one_in(2)]

    def _several(self, make: Callable[[], Any]) -> List[Any]:
        return [make() for _ in range(self._random.randint(0, 3))]

    def _value(self, depth: int) -> Any:
        if self._one_in(8):
            return [self._failure() if self._is_third and self._one_in(2) else self._value(depth), 1]
        return self._random.choice((None, True, 0, 1, 7, "x", [], 2**63 - 1))

    def _failure(self) -> Dict[str, Any]:
        """A failure in a value, at times with another in it."""
        if self._one_in(4):
            index = self._random.randint(0, 2)
            return {"fail": "FirstError", "index": index, "message": "", "sub": self._failure()}
        return {"fail": self._random.choice(_CLASSES), "message": self._random.choice(_TEXTS)}

    def _body(self, depth: int) -> grammar.Body:
        if self._named and self._one_in(6):
            return self._random.choice(self._named)
        body: Dict[str, Any] = {}
        if not self._one_in(3):
            body["do"] = [self._action(depth + 1) for _ in range(self._random.randint(0, 3))]
        if not self._one_in(4):
            body["end"] = self._end(grammar.ENDS, depth + 1)
        return self._commented(body)

    def _bodies(self, depth: int) -> List[grammar.Body]:
        return [self._body(depth) for _ in range(self._random.randint(0, 4))]

    def _turns(self, depth: int) -> Union[grammar.Body, List[grammar.Body]]:
        if self._is_third and self._one_in(2):
            return [self._body(depth) for _ in range(self._random.randint(1, 3))]
        return self._body(depth)

    def _end(self, table: Dict[str, List[grammar.Arguments]], depth: int) -> List[Any]:
        words = [word for word in table if grammar.SINCE.get(word, 1) <= self._version_of]
        if "wait" in words and self._one_in(3):
            return ["wait", self._name("DEFERRED", depth)]
        if "run" in words and not self._named:
            words.remove("run")
        word = self._random.choice(words)
        return [word, *self._arguments(table[word], depth)]

    def _statements(self, depth: int) -> List[Any]:
        return [self._statement(depth + 1) for _ in range(self._random.randint(0, 4))]

    def _statement(self, depth: int) -> List[Any]:
        words: List[str] = ["do", "await", "await", "end"]
        if self._is_third:
            words += ["raise", "caught"]
        if depth <= _DEEPEST:
            words += ["try", "finally", "finally"] if self._is_third else ["try"]
        word: Optional[str] = self._random.choice(words)
        assert word is not None
        statement = [word, *self._arguments(grammar.STATEMENTS[word], depth)]
        if self._is_third and word in ("try", "finally") and self._one_in(3):
            # only a result shows what was caught
            statement[-1] = [["caught"], ["end", ["pass"]]]
        return statement


def turns_of(script: str) -> Set[str]:
    """By which rules tasks take turns in a script."""
    root = json.loads(script)
    settings = [root[key] for key in ("cooperator",) if key in root] + [each for _, each in root.get("cooperators", [])]
    return {each.get("turns", grammar.FAIR) for each in settings}


#: the first version of ends and statements
_SINCE: Dict[str, int] = {word: since for table in (grammar.ENDS_SINCE, grammar.STATEMENTS_SINCE) for (word, _), since in table.items()}


def _words_of(part: Any) -> Iterator[str]:
    """The words with which arrays of a scene begin, each action with the number of its arguments."""
    if isinstance(part, dict):
        for each in part.values():
            yield from _words_of(each)
    if not isinstance(part, list):
        return
    if part and isinstance(part[0], str):
        yield f"{part[0]} {len(part) - 1}"
        if part[0] == "loop" and isinstance(part[-1], list):
            yield "turns"
    for each in part:
        yield from _words_of(each)


def _holds_bodies(word: str) -> bool:
    """Whether an action of this word always holds bodies, so that they could nest without end."""
    inner = {Kind.BODY, Kind.BODIES, Kind.TURNS, Kind.STATEMENTS}
    return all(inner & set(arguments) for arguments in grammar.ACTIONS[word])
