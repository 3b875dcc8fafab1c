"""The lines of a program that made Deferreds: how many each, how these ended, how long they were unfired, and which are odd.

A Deferred is odd if it was unfired far longer than the others of its line, or was cancelled where nearly all others ended with a
value. One that hung on an odd one isn't odd itself.

A line that several others have called, as that of a client's requests, says little. So it is divided by the lines that called it, at the
first caller by which they differ. If one line of another file has called it for all, that counts. What was divided is compared each for
itself if these are enough, and else with all of the line.
"""

from __future__ import annotations

import re
from typing import Dict, List, Optional, Set, Tuple

from .durations import Durations
from .fold import Fold
from .places import Frame, Place, Places
from .records import Ended, Record, ended
from .units import seconds_of

#: how many Deferreds a line has made at least if one of them is called odd, and how many times the median that one was unfired
_LEAST, _TIMES = 4, 5
#: below how many seconds nothing is long
_SHORT = 0.05
#: of how many Deferreds at most one is cancelled where that is odd
_RARE = 4

#: how a Deferred ended, in a word
OK, FAIL, CANCELLED, _UNFIRED = "ok", "fail", "cancelled", "unfired"


#: what `./record` adds to the name of a function: the line, and which one of that line it is
_NUMBERS = re.compile(r"_[0-9]+(?:_[0-9]+)?$")


class Site:
    """A line of the program, with the Deferreds that it made, or that another line made which it has called."""

    def __init__(self, place: Place, function: str) -> None:
        self.place = place
        self.function = function
        #: the line that made them, if this one has called it; and the one that has called this one, if it is the same for all
        self.by: Optional[Frame] = None
        self.caller: Optional[Frame] = None
        self.records: List[Record] = []
        #: how many ended how: `ok`, `fail`, `cancelled`, `waiting`, `paused` or `unfired`
        self.ends: Dict[str, int] = {}
        #: how many ticks these were unfired: the median, and the longest
        self.median = 0
        self.longest = 0
        #: the numbers of those that are odd, and of those that were unfired far longer than the others
        self.odd: List[int] = []
        self.long: Set[int] = set()
        #: the line with whose Deferreds these are compared
        self.among = self

    def count(self, end: str) -> int:
        """How many ended so."""
        return self.ends.get(end, 0)

    @property
    def label(self) -> str:
        """The function, and the one that it has called to make them, or that has called it: `order, by ask at wire.py:33`."""
        if self.by is not None:
            return f"{self.function}, by {self.by.function} at {self.by.place.text}"
        return f"{self.function}, from {self.caller.function} at {self.caller.place.text}" if self.caller is not None else self.function

    @property
    def said(self) -> str:
        """How they ended: `13 ok, 1 fail`."""
        return ", ".join(f"{count} {end}" for end, count in self.ends.items())


def end_of(fold: Fold, record: Record) -> str:
    """How a Deferred ended, by what it was fired with, whatever its callbacks have made of that; or that it waits or is paused."""
    if record.fired is None:
        return _UNFIRED
    if record.cancelled is not None:
        return CANCELLED
    end = ended(record.end)
    if end is Ended.WAIT or end is Ended.PAUSED:
        return "waiting" if end is Ended.WAIT else "paused"
    outcome = fold.rows[record.fired].entry.outcome
    return FAIL if outcome is not None and outcome.is_failure else OK


class Sites:
    """The lines that made the Deferreds of a run, those with odd ones first, then by the longest time."""

    def __init__(self, fold: Fold, places: Places, durations: Durations, tick: str) -> None:
        self._fold = fold
        self._durations = durations
        self._tick = tick
        #: by the number of a Deferred, its line; and that which made it, with all that were made there
        self.of: Dict[int, Site] = {}
        self.line_of: Dict[int, Site] = {}
        #: the lines that made them, undivided
        self.lines = self._found(places)
        found: List[Site] = []
        for line in self.lines:
            self._sum_up(line)
            divided = _divided(line, places)
            for site in divided:
                self._place(site)
                if site is not line:
                    self._sum_up(site)
                self._judge(site, site if len(site.records) >= _LEAST else line)
            found += divided
        suspects = {number for site in found for number in site.odd}
        for site in found:
            site.odd = [number for number in site.odd if not self._follows(number, suspects)]
        #: the numbers of all that are odd
        self.odd = {number for site in found for number in site.odd}
        for line in self.lines:
            line.odd = [record.number for record in line.records if record.number in self.odd]
        self.all = sorted(found, key=lambda site: (-len(site.odd), -site.longest))

    def _found(self, places: Places) -> List[Site]:
        found: Dict[Place, Site] = {}
        for record in self._fold.records.values():
            place = places.of_deferred(record.names)
            if place is not None:
                site = found.setdefault(place, Site(place, _function(record.name, place.line)))
                site.records.append(record)
                self.line_of[record.number] = site
        return list(found.values())

    def _place(self, site: Site) -> None:
        for record in site.records:
            self.of[record.number] = site

    def unfired(self, record: Record) -> int:
        """How many ticks a Deferred was unfired."""
        return self._durations.of(record).unfired

    def _sum_up(self, site: Site) -> None:
        times = sorted(self.unfired(record) for record in site.records)
        site.median, site.longest = times[len(times) // 2], times[-1]
        for record in site.records:
            end = end_of(self._fold, record)
            site.ends[end] = site.ends.get(end, 0) + 1

    def _judge(self, site: Site, others: Site) -> None:
        """Finds those of a line that are odd among these."""
        made = len(others.records)
        if made < _LEAST:
            return
        is_rare = others.count(CANCELLED) * _RARE <= made and others.count(OK) * 2 > made
        for record in site.records:
            ticks, end = self.unfired(record), end_of(self._fold, record)
            is_long = ticks > _TIMES * others.median and self._is_long(ticks)
            if is_long:
                site.long.add(record.number)
            if (is_long and end in (CANCELLED, _UNFIRED)) or (end == CANCELLED and is_rare):
                site.odd.append(record.number)
        site.among = others

    def _is_long(self, ticks: int) -> bool:
        """Whether a time is long enough to be seen, if it is known how long a tick was."""
        return seconds_of(ticks, self._tick) > _SHORT if self._tick else ticks > 0

    def _follows(self, number: int, suspects: Set[int]) -> bool:
        """Whether a Deferred was left or cancelled because it hung on one of these."""
        record = self._fold.records[number]
        return any(one in suspects and one != number for one in (record.awaits, record.waits))


def _divided(line: Site, places: Places) -> List[Site]:
    """The lines that have called one, as far as the callers of its Deferreds differ; else that line itself."""
    stacks = [_called(places, record) for record in line.records]
    level = 0
    while all(level < len(stack) for stack in stacks) and len({stack[level] for stack in stacks}) == 1:
        level += 1
    if level == 0 or all(level >= len(stack) for stack in stacks):
        if level < 2 or stacks[0][1].place.file == line.place.file:
            line.caller = stacks[0][1] if level > 1 else None
            return [line]
        level = 1
    found: Dict[Frame, Site] = {}
    for record, stack in zip(line.records, stacks):
        frame = stack[min(level, len(stack) - 1)]
        site = found.setdefault(frame, Site(frame.place, frame.function))
        site.by = stack[0] if frame != stack[0] else None
        site.records.append(record)
    return list(found.values())


def _called(places: Places, record: Record) -> Tuple[Frame, ...]:
    """The functions on Python's stack where a Deferred was made, innermost first."""
    stack = places.stack_of(record.names)
    return stack[0] if stack else ()


def _function(name: str, line: int) -> str:
    """The function that a Deferred is named after: `ask` of `ask_33_9`, which line 33 has made, and `listen` of `listen_509`."""
    return _NUMBERS.sub("", name.partition(f"_{line}")[0])
