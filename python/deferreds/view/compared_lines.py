"""Two recordings by the lines of their programs: which of these made Deferreds that ended otherwise, and what isn't compared in a value.

A program that is mended has other lines, so a line is known by its function, and by which line of that function it is.
"""

from __future__ import annotations

import re
from typing import Dict, List, NamedTuple, Optional, Tuple

from .run import Run
from .sites import Site

#: what is another one in each run, with what stands in its place: addresses with ports, ports, addresses of objects, times, numbers of objects, and the
#: lines in the names of what `./record` names
_MASKS = (
    (re.compile(r"\b\d{1,3}(?:\.\d{1,3}){3}(?::\d+)?\b"), "<address>"),
    (re.compile(r"\b([Pp]ort\W{0,2})\d{2,5}\b"), r"\1<port>"),
    (re.compile(r"\b0x[0-9a-fA-F]{4,}\b"), "<object>"),
    (re.compile(r"\b\d{4}-\d\d-\d\d[T ]\d\d:\d\d(?::\d\d)?(?:[.,]\d+)?(?:Z|[+-]\d\d:?\d\d)?"), "<time>"),
    (re.compile(r"\b\d\d:\d\d:\d\d(?:[.,]\d+)?\b"), "<time>"),
    (re.compile(r"\b\d{9,10}\.\d+\b"), "<time>"),
    (re.compile(r"<([A-Za-z_][\w.]*) \d+(?=[ >])"), r"<\1"),
    (re.compile(r'"((?:call|cooperator|lock|loop|queue|semaphore|task)_\w*?)_\d+(?:_\d+)?"'), r'"\1"'),
)


def masked(text: str) -> str:
    """A value without what is another one in each run."""
    for pattern, instead in _MASKS:
        text = pattern.sub(instead, text)
    return text


class DifferingSite(NamedTuple):
    """A line of a program whose Deferreds ended otherwise in the other run; None if that has no such line."""

    function: str
    first: Optional[Site]
    second: Optional[Site]


def is_divided(first: Run, second: Run) -> bool:
    """Whether lines are compared for each caller: an earlier version has recorded none."""
    return first.places.has_stacks and second.places.has_stacks


def by_function(run: Run, divided: bool) -> Dict[Tuple[str, int], Site]:
    """The lines that made Deferreds, by function, and by which line of the function each is."""
    counted: Dict[str, int] = {}
    found: Dict[Tuple[str, int], Site] = {}
    sites = run.inferred.sites
    for site in sorted(sites.all if divided else sites.lines, key=lambda site: site.place):
        function = f"{site.function}, by {site.by.function}" if site.by is not None else site.function
        number = counted[function] = counted.get(function, 0) + 1
        found[function, number] = site
    return found


def differing_sites(first: Run, second: Run) -> List[DifferingSite]:
    """The lines whose Deferreds ended otherwise, those with odd ones first."""
    ones, others = (by_function(run, is_divided(first, second)) for run in (first, second))
    pairs = [DifferingSite(key[0], ones.get(key), others.get(key)) for key in dict.fromkeys([*ones, *others])]
    found = [pair for pair in pairs if pair.first is None or pair.second is None or pair.first.ends != pair.second.ends]
    return sorted(found, key=lambda pair: -max(_odd(pair.first), _odd(pair.second)))


def _odd(site: Optional[Site]) -> int:
    return len(site.odd) if site is not None else 0
