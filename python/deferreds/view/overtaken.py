"""Jobs whose results came after those of jobs that began later at the same line of the program.

Results of threads come in any order, and one may write over the other. It isn't known whether the order matters. Answers of a network
are left out: requests that go on at the same time overtake each other in each service.
"""

from __future__ import annotations

from typing import Dict, List, NamedTuple, Optional

from .records import Made, Record
from .sites import Site, Sites


class Overtaken(NamedTuple):
    """A job whose result came late, and the one that came first of those that began later; how many others of its line came late."""

    late: Record
    first: Record
    site: Site
    others: int


def overtaken(sites: Sites) -> List[Overtaken]:
    """The first job of each line that was overtaken."""
    found = [_at(site) for site in sites.lines]
    return [one for one in found if one is not None]


def _at(site: Site) -> Optional[Overtaken]:
    jobs = [record for record in site.records if record.made is Made.JOB and record.fired is not None and record.cancelled is None]
    overtaking = _overtaking(jobs)
    late = [record for record in jobs if record.number in overtaking]
    return Overtaken(late[0], overtaking[late[0].number], site, len(late) - 1) if late else None


def _overtaking(jobs: List[Record]) -> Dict[int, Record]:
    """By the number of each that was overtaken, the first that came of those that began later."""
    found: Dict[int, Record] = {}
    first: Optional[Record] = None
    for record in reversed(jobs):
        if first is not None and (first.fired or 0) < (record.fired or 0):
            found[record.number] = first
        else:
            first = record
    return found
