"""Compares an implementation with ours: line by line, and by which entry of the profile they differ."""

from __future__ import annotations

import json
from typing import Callable, Iterator, List, NamedTuple, Optional, Sequence, Set, Tuple

from ..orders import Order
from . import grammar
from .answers import compared
from .behind import Twisted, Unnamed, explain
from .children import MOST_BYTES
from .classes import BUILT_IN
from .cutting import cut_down
from .posts import Batch, batches_of, has_posts
from .profile import Entry
from .programs import Answer, Program
from .rows import ANY_LINES
from .running import AT_LIMIT, OVER, UNMET
from .script import Refused, read

#: how many bytes an answer may have beyond twice those that are expected
MORE_BYTES = 1 << 20

#: how many bytes count for each line that a row leaves out
_BYTES_OF_A_LINE = 64


class Difference(NamedTuple):
    """The first line in which two answers differ."""

    line: int
    ours: str
    theirs: str
    entry: Optional[Entry]
    #: whether theirs isn't whole, and whether it was waited for in vain
    lacks: bool = False
    is_late: bool = False
    #: in which order posts were taken, where every order is compared
    order: Optional[Order] = None
    #: whether the runs aren't compared to their ends, since Twisted can't do behind the entry what ours does
    is_cut: bool = False
    #: the last entry before a difference that no entry names, if there is one
    behind: Optional[Entry] = None
    #: whether it is ours that differs, and `theirs` is what Twisted prints with our rules
    is_ours: bool = False


def difference(
    script: str, ours: Answer, theirs: Answer, batches: Optional[List[Batch]] = None
) -> Optional[Difference]:
    """In what the answers differ, and by which entry of the profile, if by one."""
    first = compared(ours, theirs)
    if first is None:
        return None
    line, mine, other = first
    if theirs.lack is not None:
        return Difference(line, mine, other, None, True, theirs.lack.is_late)
    try:
        why = explain(Twisted(script, batches), line, ours, theirs)
    except Refused:
        why = None
    if isinstance(why, Unnamed):
        return Difference(*why.first, None, behind=why.behind, is_ours=why.is_ours)
    if why is None:
        return Difference(line, mine, other, None)
    return Difference(line, mine, other, why.entry, is_cut=why.is_cut)


class Case(NamedTuple):
    """A run that is compared: what is expected of it, and how its posts are taken, where it has some."""

    expected: Answer
    batches: Optional[List[Batch]]
    order: Optional[Order] = None


def most_bytes(script: str, expected: Answer) -> int:
    """How many bytes are read of an answer to the script, where this one is expected. One that differs by an entry has fewer."""
    known = 2 * len(expected.output.encode("utf-8", "replace"))
    return min(MOST_BYTES, known + _left_out(script, expected) + MORE_BYTES)


def _left_out(script: str, expected: Answer) -> int:
    """How many bytes the lines may have that a row leaves out: the limit of the journal has room for so many lines."""
    if f"{ANY_LINES}\n" not in expected.output:
        return 0
    return _BYTES_OF_A_LINE * int(json.loads(script).get("limit", 0))


class Comparison:
    """Compares one program with ours, script by script."""

    def __init__(self, ours: Program, theirs: Program, trials: int) -> None:
        self._ours = ours
        self._theirs = theirs
        self._trials = trials
        #: how many answers theirs was asked for
        self._asked = 0

    def _answer(self, script: str, case: Case) -> Answer:
        self._asked += 1
        return self._theirs.answer(script, case.batches, most_bytes(script, case.expected))

    def of_script(self, script: str) -> Optional[Difference]:
        """In what the programs differ on a script."""
        return self.of_row(script, self._ours.answer(script))

    def of_row(self, script: str, expected: Answer) -> Optional[Difference]:
        """In what the program differs from what a row expects.

        Where the batches of that can't be told apart, the program has to agree for some of them.
        """
        found: Optional[Difference] = None
        for case in self._cases(script, expected):
            other = difference(script, case.expected, self._answer(script, case), case.batches)
            if self._settles(other):
                return other and other._replace(order=case.order)
            if other is not None and (found is None or (found.entry is None and other.entry is not None)):
                found = other._replace(order=case.order)
        return found

    def _cases(self, script: str, expected: Answer) -> Iterator[Case]:
        """The runs of a script that are compared."""
        for batches in _batches(script, expected):
            yield Case(expected, batches)

    def _settles(self, found: Optional[Difference]) -> bool:
        """Whether no more runs have to be compared."""
        return found is None or found.lacks

    def cut_down(self, script: str, found: Difference, tried: Callable[[int], None]) -> str:
        """The smallest script on which the programs differ by the same entry, or by none, as on this one.

        `tried` is called with how many scripts were tried. No more are where one wasn't answered in time, or where all runs are used up.
        """
        count = 0
        late = found.is_late
        last = self._asked + self._trials

        def shows(smaller: str) -> bool:
            nonlocal count, late
            if late or self._asked >= last:
                return False
            count += 1
            tried(count)
            try:
                read(smaller.encode(), list(BUILT_IN))
            except Refused:
                return False
            other = self.of_script(smaller)
            late = other is not None and other.is_late
            return other is not None and not late and _kind_of(other) == _kind_of(found)

        return script if late else cut_down(script, shows, self._trials)


def _kind_of(found: Difference) -> Tuple[object, ...]:
    """The likeness of a script that is cut down to the one from which it was cut."""
    return found.entry, found.lacks, found.behind, found.is_ours


def _batches(script: str, answer: Answer) -> Sequence[Optional[List[Batch]]]:
    """In which batches the posts may have been taken; none, of a script that has no posts."""
    if answer.status not in (OVER, AT_LIMIT, UNMET) or '"callers"' not in script or not has_posts(json.loads(script)):
        return [None]
    return batches_of(script, answer.output)


def is_of_level(script: str, level: str) -> bool:
    """Whether a script has nothing but what this level and those before it have."""
    try:
        root = json.loads(script)
    except ValueError:
        return True
    known = frozenset(grammar.actions_up_to(level))
    words = words_in(root)
    beyond = {word for word in words if word in grammar.ACTIONS and word not in known}
    return not beyond and all(grammar.has(level, other) for other in _levels(root, words))


def _levels(root: object, words: Set[str]) -> Iterator[str]:
    """The levels that add what a script has beside its actions."""
    keys = root if isinstance(root, dict) else {}
    version = keys.get("version")
    if "advance" in words:
        yield "clock"
    if "drain" in words or "callers" in keys:
        yield "posts"
    if type(version) is int and version >= 2:
        yield "pools" if version == 2 else "version-3"


def words_in(value: object) -> Set[str]:
    """The texts with which arrays begin."""
    words: Set[str] = set()
    stack = [value]
    while stack:
        value = stack.pop()
        if isinstance(value, list):
            if value and isinstance(value[0], str):
                words.add(value[0])
            stack.extend(value)
        elif isinstance(value, dict):
            stack.extend(value.values())
    return words
