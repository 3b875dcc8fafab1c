"""Two runs beside each other: up to which line they are the same, and which outcomes differ."""

from __future__ import annotations

import re
from collections import Counter
from difflib import SequenceMatcher
from itertools import zip_longest
from typing import Dict, Iterator, List, NamedTuple, Optional, Tuple

from .compared_lines import DifferingSite, by_function, differing_sites, is_divided, masked
from .records import By, Record, Row
from .run import Run
from .sites import Site
from .sizes import several

#: a Deferred of either run: its name, and which one of that name it is. Its number is another where one more was made before it
Key = Tuple[str, int]

#: what two lines have in common that are the same
Form = Tuple[object, ...]

#: what `./record` adds to the name of a function: the line of the program, and which one of that line it is
_OF_LINE = re.compile(r"_\d+(?:_\d+)?$")


#: up to how many outcomes of a line of the program are compared in their order
_MOST_IN_ORDER = 4


class Differing(NamedTuple):
    """A Deferred whose outcome isn't the same in both runs; None where a run has no such Deferred."""

    name: str
    first: Optional[Record]
    second: Optional[Record]


class Aligned(NamedTuple):
    """Rows that stand beside each other, and whether they are the same; None where only one run has a row."""

    first: Optional[Row]
    second: Optional[Row]
    is_same: bool


class Side:
    """One of the two runs, by the keys of its Deferreds; loosely, apart from times and the lines of a program that was recorded."""

    def __init__(self, run: Run, is_loose: bool, divided: bool = False) -> None:
        """`divided`: whether lines of the program are compared for each caller."""
        self.run = run
        self._is_loose = is_loose
        self._divided = divided
        things = [*run.fold.world.locks.all, *run.fold.world.loops.all]
        self._things = {f'ok "{thing.name}"' for thing in things}
        #: of a recording, by the number of a Deferred, its function and which line of that function made it
        lines = by_function(run, divided) if is_loose else {}
        self._lines = {record.number: f"{function} {place}" for (function, place), site in lines.items() for record in site.records}
        #: the rows that are compared: loosely, without those in which time goes on, which may be one more where a clock is read later
        self._rows = [row for row in run.fold.rows if not (is_loose and row.entry.word == "advance")]
        self.forms: List[Form] = [self._form(row) for row in self._rows]
        self.records: Dict[Key, Record] = {}
        self._keys: Dict[int, Key] = {}
        counted: Dict[str, int] = {}
        for record in run.fold.records.values():
            name = self._lines.get(record.number) or self._name(record.name)
            counted[name] = counted.get(name, 0) + 1
            key = name, counted[name]
            self.records[key] = record
            self._keys[record.number] = key

    def form_in_its_line(self, row: Row) -> Form:
        """The same, with the line of the program that made a Deferred in the place of its number: so lines of two runs are found again in which
        other Deferreds were made between."""
        entry, form = row.entry, self._form(row)
        if not self._is_loose or not entry.word:
            return form
        return (*form[:2], self._lines.get(entry.deferred, ""), self._lines.get(entry.other, ""), *form[4:])

    def rows_after(self, common: int) -> List[Row]:
        """The rows after so many, as far as they are compared."""
        return [row for row in self._rows if row.place >= common]

    def place_of(self, number: int) -> int:
        """The place of the row that is compared as this one; of the end, where there are no more."""
        return self._rows[number].place if number < len(self._rows) else len(self.run.fold.rows)

    def _name(self, name: str) -> str:
        return _OF_LINE.sub("", name) if self._is_loose else name

    def _form(self, row: Row) -> Form:
        """What another line has to have that is the same as this one."""
        entry = row.entry
        if not self._is_loose or not entry.word:
            return (entry.line,)
        number = None if entry.word in ("later", "reset") else entry.number  # (it is a time there)
        tail = self._value(entry.line[entry.head :])
        return entry.word, entry.what, entry.deferred, entry.other, self._name(entry.name), number, tail

    def _value(self, text: str) -> str:
        """An outcome. It may be the name of a lock or a loop: a Deferred that gets a token, or of a loop that has ended, has it as its value."""
        if text in self._things:
            return f'{self._name(text[:-1])}"'
        return masked(text) if self._is_loose else text

    def lacks(self, row: Row) -> str:
        """What the line of a firing without effect doesn't say: with what it fires, where its event tells that."""
        is_told = row.entry.word in ("refuse", "swallow") and row.actor.by is By.EVENT
        return self.run.script.fired_with(row.actor.number) if is_told else ""

    def site(self, record: Record) -> Optional[Site]:
        """The line of the program that made a Deferred, if that is known."""
        sites = self.run.inferred.sites
        return (sites.of if self._divided else sites.line_of).get(record.number)

    def end(self, record: Record) -> str:
        """The outcome of a Deferred, without whom it waits for."""
        return self.outcome(record)[0]

    def values(self, site: Site) -> List[str]:
        """The outcomes of the Deferreds of a line, in one order."""
        return sorted(map(self.end, site.records))

    def outcome(self, record: Record) -> Tuple[str, Optional[Key]]:
        """The outcome, and the Deferred that it waits for: by its number it can't be compared."""
        if record.waits is None:
            return self._value(record.end), None
        return record.end.split("#")[0], self._keys.get(record.waits)


class Compared:
    """What two runs have in common, and what differs."""

    def __init__(self, first: Run, second: Run) -> None:
        #: whether both were recorded: times of a reactor are never the same twice, and a program that is mended has other lines
        self.is_loose = first.is_recorded and second.is_recorded
        divided = is_divided(first, second)
        self.first = Side(first, self.is_loose, divided)
        self.second = Side(second, self.is_loose, divided)
        common = _common(self.first.forms, self.second.forms)
        #: of each run, how many lines come before the first that differs
        self.common = self.first.place_of(common), self.second.place_of(common)
        #: of two recordings, the lines of the programs whose Deferreds ended otherwise
        self.sites: List[DifferingSite] = differing_sites(first, second) if self.is_loose else []
        self.outcomes: List[Differing] = self._by_line() if self.is_loose else list(self._outcomes())

    def aligned(self, most: int) -> List[Aligned]:
        """The rows after the common ones, up to so many of each run, where the same ones stand beside each other again."""
        sides = (self.first, self.second)
        ones, others = (side.rows_after(common)[:most] for side, common in zip(sides, self.common))
        forms = [[side.form_in_its_line(row) for row in rows] for side, rows in zip(sides, (ones, others))]
        found: List[Aligned] = []
        for tag, start, stop, begin, end in SequenceMatcher(None, forms[0], forms[1]).get_opcodes():
            pairs = zip_longest(ones[start:stop], others[begin:end])
            found += [Aligned(first, second, tag == "equal") for first, second in pairs]
        return found

    @property
    def is_same(self) -> bool:
        """Whether lines and outcomes are the same."""
        return self._has_same_lines and not self.outcomes

    @property
    def _has_same_lines(self) -> bool:
        return self.first.forms == self.second.forms

    def _outcomes(self) -> Iterator[Differing]:
        for key, record in self.first.records.items():
            other = self.second.records.get(key)
            if other is None or self.first.outcome(record) != self.second.outcome(other):
                yield Differing(_names(record, other), record, other)
        for key, record in self.second.records.items():
            if key not in self.first.records:
                yield Differing(record.name, None, record)

    def _by_line(self) -> List[Differing]:
        """The outcomes that differ, by the line that made these Deferreds; without lines whose Deferreds have the same ones in another order."""
        groups: Dict[Tuple[str, int], List[Differing]] = {}
        for one in self._outcomes():
            if not self._has_same_values(one):
                groups.setdefault(self._place(one), []).append(one)
        return [one for place in sorted(groups) for one in self._but_for_order(groups[place])]

    def _but_for_order(self, differing: List[Differing]) -> List[Differing]:
        """Outcomes of one line that differ; if they are many, without those that both runs have, one for one, in another order."""
        if len(differing) <= _MOST_IN_ORDER:
            return differing
        ones = [one.first for one in differing if one.first is not None]
        others = [one.second for one in differing if one.second is not None]
        common = Counter(map(self.first.end, ones)) & Counter(map(self.second.end, others))
        pairs = zip_longest(_without(ones, self.first, common), _without(others, self.second, common))
        return [Differing(_names(first, second), first, second) for first, second in pairs]

    def _has_same_values(self, one: Differing) -> bool:
        if one.first is None or one.second is None:
            return False
        first, second = self.first.site(one.first), self.second.site(one.second)
        return first is not None and second is not None and self.first.values(first) == self.second.values(second)

    def _place(self, one: Differing) -> Tuple[str, int]:
        """The line that made a Deferred; one that isn't known comes last."""
        site = self.first.site(one.first) if one.first is not None else self.second.site(one.second) if one.second is not None else None
        return site.place if site is not None else ("\U0010ffff", 0)

    @property
    def verdict(self) -> str:
        """What differs, in a few words."""
        lines = several(len(self.first.run.fold.rows), "line", "lines")
        if self.is_same:
            return f"the same: {lines}, and all outcomes"
        where = f"all {lines} are the same" if self._has_same_lines else self._where
        differ = several(len(self.outcomes), "outcome differs", "outcomes differ") if self.outcomes else "no outcome differs"
        lines = several(len(self.sites), "line of the program", "lines of the program")
        return f"{where}; {differ}" + (f"; the Deferreds of {lines} ended otherwise" if self.sites else "")

    @property
    def _where(self) -> str:
        one, other = (common + 1 for common in self.common)
        if one == other:
            return f"line {one} is the first that differs"
        return f"line {one} of the first and line {other} of the second are the first that differ"

    @property
    def apart(self) -> str:
        """What isn't compared, or an empty text."""
        if not self.is_loose:
            return ""
        return "Both were recorded, so times, addresses, ports, numbers of objects and the program's line numbers in names aren't compared."


def _names(first: Optional[Record], second: Optional[Record]) -> str:
    """The name of a Deferred of either run, or both if they differ."""
    return " / ".join(dict.fromkeys(record.name for record in (first, second) if record is not None))


def _without(records: List[Record], side: Side, common: Counter[str]) -> List[Record]:
    """The records but for so many of each outcome."""
    left = Counter(common)
    found: List[Record] = []
    for record in records:
        end = side.end(record)
        if left[end] > 0:
            left[end] -= 1
        else:
            found.append(record)
    return found


def _common(first: List[Form], second: List[Form]) -> int:
    pairs = enumerate(zip(first, second))
    return next((place for place, (one, other) in pairs if one != other), min(len(first), len(second)))
