"""Counts what became of several tests that were shaken."""

from __future__ import annotations

from collections import Counter
from typing import Counter as Counts, Dict, List, Mapping

from ...program import NOT_RUN
from ...view.sizes import several
from .search import FAILED, PASSED, UNUSABLE

#: the statuses, the one that counts most first, and what is said of the tests with them
_STATUSES: Dict[int, str] = {FAILED: "failed", NOT_RUN: "not run", UNUSABLE: "failed unshaken", PASSED: "passed"}


class Tally:
    """The tests so far."""

    def __init__(self) -> None:
        self._by_status: Dict[int, List[str]] = {status: [] for status in _STATUSES}
        #: how many tests have met a perturbation, and how many of which kind all of them have
        self._meeting = 0
        self._met: Counts[str] = Counter()

    def add(self, name: str, status: int, met: Mapping[str, int]) -> None:
        """Adds a test, with the status of its search, and how many perturbations of which kind it has met."""
        self._by_status[status].append(name)
        self._meeting += bool(met)
        self._met.update(met)

    @property
    def status(self) -> int:
        """The status of all."""
        return next((status for status, names in self._by_status.items() if names), PASSED)

    @property
    def said(self) -> str:
        """What became of them, in a line: how many, what they have met, and the names of those that haven't passed."""
        count = sum(map(len, self._by_status.values()))
        kinds = ", ".join(f"{kind} {number}" for kind, number in sorted(self._met.items()))
        parts = [f"{several(count, 'test', 'tests')}, of which {self._meeting} met perturbations{f' ({kinds})' if kinds else ''}"]
        for status, words in _STATUSES.items():
            names = self._by_status[status]
            if names:
                parts.append(f"{len(names)} {words}" + ("" if status == PASSED else f" ({', '.join(names)})"))
        return "; ".join(parts)
