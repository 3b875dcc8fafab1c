"""The lines of a journal, read: each one's word, the Deferreds and the object that it names, and what it shows.

The forms are those of the language (docs/LANGUAGE.md, `lines`). A text in a line may hold U+2028 and the like, so that
lines end at a line feed alone.
"""

from __future__ import annotations

import re
from typing import Dict, List, NamedTuple, Optional, Pattern, Set, Tuple

from ..language import LANGUAGE, Line

_NAME = rf"[A-Za-z0-9_][A-Za-z0-9_.:-]{{0,{LANGUAGE.limits['name'] - 1}}}"


class Outcome(NamedTuple):
    """What a Deferred or a task has come to, as a line shows it: `ok JSON` or `fail CLASS "MESSAGE"`."""

    text: str

    @property
    def is_failure(self) -> bool:
        """Whether it is a failure."""
        return self.text.startswith("fail ")


NULL = Outcome("ok null")


class Entry(NamedTuple):
    """A line of the journal."""

    #: its place in the journal, from 0; lines are shown with numbers from 1
    row: int
    line: str
    #: its first word, or "" where the line isn't known
    word: str = ""
    #: of `later`, what is scheduled: call, loop, tick, job or timeout
    what: str = ""
    #: the Deferred that it is about, and another one that it names
    deferred: int = -1
    other: int = -1
    #: the name of an object, or of a Deferred that is made
    name: str = ""
    #: the name of a second object that it names
    second: str = ""
    #: a time, a number of tokens, of a job or of a caller
    number: int = -1
    outcome: Optional[Outcome] = None
    #: how many characters come before what is a script's own: a value, a failure or a text
    head: int = 0
    #: which object of its kind is meant, where the facts say so
    object: int = -1
    #: what a script expects of the Deferred, as `waiting` or `ok JSON`, if the line says so
    expected: str = ""

    @property
    def fails(self) -> bool:
        """Whether it shows a failure, by its outcome, and not by what a text holds."""
        return self.word == "unhandled" or (self.outcome is not None and self.outcome.is_failure)


#: a text up to what follows it, which isn't looked for in the strings of its JSON
_OUT_OF_STRINGS = r'(?:[^"]|"(?:[^"\\]|\\.)*")*?'

#: by the type of a part, how it is written, and where of an entry it goes
_SHAPES: Dict[str, Tuple[str, str]] = {
    "deferred": (r"\d+", "deferred"),
    "fired": (r"\d+", "deferred"),
    "new name": (f"{_NAME}|-", "name"),
    "name": (f"{_NAME}|-", "name"),
    "object": (_NAME, "name"),
    "job": (r"\d+", "number"),
    "number": (r"\d+", "number"),
    "bound": (r"\d+|none", "bound"),
    "due": (r"\d+", "number"),
    "time": (r"\d+", "number"),
    "outcome": ("(?:ok|fail) .*", "tail"),
    "value": (".*", "tail"),
    "failure": (".*", "tail"),
    "text": (".*", "tail"),
    "state": (rf"unfired|waiting #\d+|(?:ok|fail) {_OUT_OF_STRINGS}", "tail"),
    "expected": (r"unfired|waiting|(?:ok|fail) .*", "expected"),
}


def _pattern(form: Line) -> Pattern[str]:
    """What a line of this form looks like. What no entry has is in no group."""
    types = [part["type"] for part in form.parts]
    written = [form.line]
    seen: Set[str] = set()
    for kind in types:
        shape, group = _SHAPES[kind]
        if kind == "job" and "due" in types:
            group = "name"
        if group in seen:
            group = {"deferred": "other", "name": "second"}.get(group, group)
        named = f"(?P<{group}>{shape})" if group not in seen else f"(?:{shape})"
        before = {"deferred": "#", "other": "#", "expected": "expected "}.get(group, "")
        written.append(before + named)
        seen.add(group)
    return re.compile(" ".join(written), re.DOTALL)


_PATTERNS: Dict[str, Pattern[str]] = {form.line: _pattern(form) for form in LANGUAGE.lines}
_SHOW_OUTCOMES = frozenset(form.line for form in LANGUAGE.lines if {"type": "outcome"} in form.parts)

#: the first words of all lines
WORDS = frozenset(words.split()[0] for words in _PATTERNS)


def read_line(row: int, line: str, thing: int = -1) -> Entry:
    """The line at this place, in which the object that it names is the one of this number, where that is known."""
    word, _, rest = line.partition(" ")
    what = rest.partition(" ")[0] if word == "later" else ""
    words = f"{word} {what}".rstrip()
    pattern = _PATTERNS.get(words)
    found = pattern.fullmatch(line) if pattern is not None else None
    if found is None:
        return Entry(row, line)
    part = found.groupdict()
    first, second = int(part.get("deferred") or -1), int(part.get("other") or -1)
    if word == "hand":  # it names the one that hands over first
        first, second = second, first
    tail = part.get("tail")
    return Entry(
        row,
        line,
        word,
        what,
        first,
        second,
        part.get("name") or "",
        part.get("second") or "",
        int(part.get("number") or -1),
        Outcome(tail) if tail is not None and words in _SHOW_OUTCOMES else None,
        len(line) if tail is None else found.start("tail"),
        thing,
        part.get("expected") or "",
    )


_OUTCOME_LINE = re.compile(r"#(\d+) (\S+) (.*)", re.DOTALL)


class End(NamedTuple):
    """The outcome line of a Deferred."""

    number: int
    name: str
    #: from `unfired`, `waiting #M`, `ok JSON` or `fail ..` to `paused ..` of one of these
    state: str


def split(text: str) -> Tuple[List[str], List[str]]:
    """The lines of the journal, and those of the outcomes, which begin with the first that begins with `#`."""
    lines = text.split("\n")
    if lines and not lines[-1]:
        lines.pop()
    first = next((row for row, line in enumerate(lines) if line.startswith("#")), len(lines))
    return lines[:first], lines[first:]


def parts(text: str) -> Tuple[List[str], List[str], bool]:
    """The same, and whether lines are missing: each Deferred that is made has an outcome. A last line that is cut isn't read."""
    lines, outcomes = split(text)
    is_cut = sum(line.startswith("new #") for line in lines) > len(outcomes)
    if is_cut and text and not text.endswith("\n"):
        (outcomes or lines).pop()
    return lines, outcomes, is_cut


def read_end(line: str) -> Optional[End]:
    """An outcome line, or None where it isn't one."""
    found = _OUTCOME_LINE.fullmatch(line)
    return End(int(found[1]), found[2], found[3]) if found is not None else None
