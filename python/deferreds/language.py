"""The language as `./deferreds --language` prints it (docs/LANGUAGE.md): its words, its keys, the lines of the journal.

`language.json` is that output, and all that Python knows of the forms is read off it.
"""

from __future__ import annotations

import json
from pathlib import Path
from typing import Any, Dict, FrozenSet, List, NamedTuple, Optional, Tuple

FILE = Path(__file__).with_name("language.json")

#: what a place of a script asks for, or a part of a line: an object with `type`
Form = Dict[str, Any]


class Word(NamedTuple):
    """A word with its arguments, in a form that it may have."""

    word: str
    #: where it may stand: event, action, statement, end, leaving, work
    where: Tuple[str, ...]
    arguments: Tuple[Form, ...]
    #: as the tables of docs/SCRIPT.md show it
    text: str
    #: the first version of the language that has it
    since: int


class Key(NamedTuple):
    """A key of an object: of the script, of a cooperator, of a body, or of a failure in a value."""

    of: str
    key: str
    needed: bool
    since: int
    value: Form


class Line(NamedTuple):
    """A line of the journal: its first word, or of `later` its first two, and what follows."""

    line: str
    parts: Tuple[Form, ...]
    #: what it begins or ends
    nesting: str


class Language(NamedTuple):
    """All of it."""

    versions: Tuple[int, ...]
    words: Tuple[Word, ...]
    keys: Tuple[Key, ...]
    lines: Tuple[Line, ...]
    #: the classes that are built in, each with its parent, parents first
    classes: Dict[str, Optional[str]]
    #: the first version that has each of them
    classes_since: Dict[str, int]
    #: the most that there may be of something
    limits: Dict[str, int]
    #: the same of a script of a version before this one, where it is less
    smaller: Dict[str, int]
    #: what stands where a script leaves it out
    usual: Dict[str, int]
    #: the numbers of the refusals, by their names
    refusals: Dict[str, int]
    #: when the program ends with which status
    statuses: Dict[int, str]

    def at(self, place: str) -> List[Word]:
        """The words that may stand at a place."""
        return [word for word in self.words if place in word.where]

    def actions(self) -> FrozenSet[str]:
        """The words of actions."""
        return frozenset(word.word for word in self.at("action"))

    def lines_that(self, *nestings: str) -> FrozenSet[str]:
        """The first words of the lines that begin or end this."""
        return frozenset(line.line.split()[0] for line in self.lines if line.nesting in nestings)

    def most(self, name: str, version: int) -> int:
        """The most bytes or nodes of a script of a version, or the most that its `limit` may be."""
        if version < self.smaller["before"]:
            return self.smaller[name]
        if name == "limit":
            return next(int(key.value["most"]) for key in self.keys_of("script") if key.key == name)
        return self.limits[name]

    def keys_of(self, name: str, version: Optional[int] = None) -> List[Key]:
        """The keys that an object may have, in a version or in the last one."""
        last = self.versions[-1] if version is None else version
        return [key for key in self.keys if key.of == name and key.since <= last]


def read(text: str) -> Language:
    """The language that such an output has."""
    told: Dict[str, Any] = json.loads(text)
    return Language(
        versions=tuple(told["versions"]),
        words=tuple(
            Word(row["word"], tuple(row["where"]), tuple(row["arguments"]), row["text"], row["since"])
            for row in told["words"]
        ),
        keys=tuple(Key(**row) for row in told["keys"]),
        lines=tuple(Line(row["line"], tuple(row["parts"]), row["nesting"]) for row in told["lines"]),
        classes={row["class"]: row["parent"] for row in told["classes"]},
        classes_since={row["class"]: row["since"] for row in told["classes"]},
        limits=told["limits"],
        smaller=told["smaller"],
        usual=told["usual"],
        refusals={row["name"]: row["refusal"] for row in told["refusals"]},
        statuses={row["status"]: row["when"] for row in told["statuses"]},
    )


#: the language of this package
LANGUAGE = read(FILE.read_text(encoding="utf-8"))
