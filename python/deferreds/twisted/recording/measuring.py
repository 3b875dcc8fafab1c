"""Measures the recorder on tests that others wrote: what is recorded, and what is reproduced."""

from __future__ import annotations

import collections
import unittest
from typing import Counter, Dict, List, NamedTuple, Optional

from ..answers import compared
from ..programs import Answer, Program
from .agreeing import judged_by_twisted
from .case import TestRun, record_test
from .programs import LADDER, tests_of
from .saying import Said

#: how a test went
NOTHING = "uses no Deferreds"
SKIPPED = "is skipped"
SAME = "the same"
NAMED = "differs at an entry of the profile"
DIFFERS = "differs"
CANNOT = "can't be said"


class Measured(NamedTuple):
    """The result of a test."""

    test: str
    state: str
    #: the entry, the reasons, or the first line that differs
    why: str
    #: whether all objects were recorded as such
    natively: bool
    #: whether times of the real reactor are recorded
    with_times: bool
    passed: bool


class Attempt(NamedTuple):
    """A test recorded with some kinds of objects told as such."""

    said: Said
    #: how it differs: None, where it doesn't; an entry; or the line
    differs: Optional[str]
    entry: Optional[str]

    @property
    def whole(self) -> bool:
        """Whether all of it could be said."""
        return not self.said.problems and self.said.script is not None

    @property
    def is_same(self) -> bool:
        """Whether it could be said, and is reproduced."""
        return self.whole and self.differs is None


def _attempt(run: TestRun, ours: Program) -> Attempt:
    said = Said(run.recorder)
    if said.problems or said.script is None:
        return Attempt(said, None, None)
    theirs = Answer(0, said.output, "")
    first = compared(ours.answer(said.text), theirs)
    if first is None:
        return Attempt(said, None, None)
    line, mine, other = first
    before = [entry for place, entry in said.quirks if place < line]
    judged = judged_by_twisted(said, before) if before else None
    if judged is not None:
        return Attempt(said, f"behind {before[-1].value}, {judged.text}", None)
    return Attempt(said, f"line {line}: {mine} | {other}", before[-1].value if before else None)


def measure_test(cls: type[unittest.TestCase], method: str, ours: Program) -> Measured:
    """Records one test, as such or one level down, and compares it with ours."""
    name = f"{cls.__name__}.{method}"
    first = record_test(cls, method, LADDER[0], False)
    passed = first.passed
    best = _attempt(first, ours)
    if first.skipped or best.said.is_empty:
        return Measured(name, SKIPPED if first.skipped else NOTHING, "", True, False, passed)
    natively = best.is_same
    for kinds in LADDER[1:]:
        if best.is_same or not _may_help(best, kinds):
            continue
        attempt = _attempt(record_test(cls, method, kinds, False), ours)
        if attempt.is_same or (attempt.whole and not best.whole):
            best = attempt
    if best.is_same:
        return Measured(name, SAME, "", natively, best.said.with_times, passed)
    return _left(name, best, passed)


def _may_help(attempt: Attempt, kinds: frozenset[str]) -> bool:
    """Whether what could not be said may be said with fewer kinds of objects told as such."""
    if attempt.whole:
        return attempt.entry is None
    reasons = {problem.kind for problem in attempt.said.problems}
    return None not in reasons and not any(kind in kinds for kind in reasons)


def _left(name: str, best: Attempt, passed: bool) -> Measured:
    if not best.whole:
        reasons = "; ".join(dict.fromkeys(problem.reason for problem in best.said.problems))
        return Measured(name, CANNOT, reasons, False, best.said.with_times, passed)
    if best.entry is not None:
        return Measured(name, NAMED, best.entry, False, best.said.with_times, passed)
    return Measured(name, DIFFERS, str(best.differs), False, best.said.with_times, passed)


def measure(modules: List[str], ours: Program) -> Dict[str, List[Measured]]:
    """All tests of these modules."""
    return {
        module: [measure_test(cls, method, ours) for cls, method in tests_of(module)]
        for module in modules
    }


def bare_failures(module: str) -> List[str]:
    """The tests of a module that fail where nobody watches."""
    failing: List[str] = []
    for cls, method in tests_of(module):
        result = unittest.TestResult()
        cls(method).run(result)
        if result.failures or result.errors:
            failing.append(f"{cls.__name__}.{method}")
    return failing


def counted(measured: List[Measured]) -> Counter[str]:
    """How many tests had which result."""
    return collections.Counter(one.state for one in measured)
