"""A clock that jumps: where nothing but time can bring anything, the reactor doesn't wait, and the clocks go on by as much.

It waits as ever while a thread works, a process runs, or something is watched beside what wakes the reactor for a post or a child.
"""

from __future__ import annotations

import os
import signal
import threading
import time
import weakref
from collections import Counter
from typing import Any, Callable, Counter as Counts, Iterable, List, NamedTuple, Optional

from twisted.internet import base
from twisted.python import threadpool

from ...view.sizes import several
from .log import Log

#: the lines of the log
JUMPED, WAITED = "jumped", "waited"

#: shorter waits than that, in seconds, aren't worth a jump
LEAST = 0.002
#: after how many seconds it is looked again whether something else can come: a thread that ends tells nobody
_STEP = 0.02
#: how many waits are noted
_MOST = 20_000
#: how many reasons are named
_MOST_NAMED = 3

_seconds = time.monotonic

#: the clocks that jump, and how many of their units a second has
_CLOCKS = {"time": 1, "monotonic": 1, "perf_counter": 1, "time_ns": 10**9, "monotonic_ns": 10**9, "perf_counter_ns": 10**9}


class Waits(NamedTuple):
    """The waits of runs: how many were left out, and of how many seconds; how many seconds were waited, and how often for which reason."""

    jumps: int = 0
    skipped: float = 0.0
    waited: float = 0.0
    reasons: Counts[str] = Counter()

    def with_more(self, other: Waits) -> Waits:
        """These and others."""
        return Waits(self.jumps + other.jumps, self.skipped + other.skipped, self.waited + other.waited, self.reasons + other.reasons)

    @property
    def said(self) -> str:
        """What is said of them, in a line."""
        skipped = f"--fast left out {several(self.jumps, 'wait', 'waits')}, of {self.skipped:,.1f} s in all"
        if not self.reasons:
            return skipped
        named = [f"{reason} ({several(count, 'time', 'times')})" for reason, count in self.reasons.most_common(_MOST_NAMED)]
        more = len(self.reasons) - len(named)
        others = f", and {more} more" if more else ""
        times = several(sum(self.reasons.values()), "time", "times")
        return f"{skipped}; it waited {times}, {self.waited:,.1f} s in all, since {', '.join(named)}{others}"


def waits_of(lines: Iterable[List[str]]) -> Waits:
    """The waits that the log of a run tells."""
    found = list(lines)
    jumps = [float(line[1]) for line in found if line[0] == JUMPED]
    waited = [(line[1], float(line[2])) for line in found if line[0] == WAITED]
    return Waits(len(jumps), sum(jumps), sum(seconds for _, seconds in waited), Counter(reason for reason, _ in waited))


class Fast:
    """The clock of a run, which jumps."""

    def __init__(self, log: Optional[Log] = None) -> None:
        self._log = log
        self._left = _MOST
        self._jumped = 0.0
        self._pools: weakref.WeakSet[Any] = weakref.WeakSet()
        #: the waits so far
        self.waits = Waits()

    def install(self) -> None:
        """Has the clocks of this process jump, from now on."""
        for name, unit in _CLOCKS.items():
            setattr(time, name, self._jumping(getattr(time, name), unit))
        setattr(base.ReactorBase, "seconds", staticmethod(time.time))
        make: Callable[..., None] = threadpool.ThreadPool.__init__

        def __init__(pool: Any, *args: Any, **kwargs: Any) -> None:
            make(pool, *args, **kwargs)
            self._pools.add(pool)

        setattr(threadpool.ThreadPool, "__init__", __init__)

    def _jumping(self, clock: Callable[[], Any], unit: int) -> Callable[[], Any]:
        def jumped() -> Any:
            passed = self._jumped * unit
            return clock() + (passed if unit == 1 else int(passed))

        jumped.__name__ = jumped.__qualname__ = clock.__name__
        return jumped

    def wait(self, ask: Callable[[Optional[float]], List[Any]], seconds: Optional[float], watched: Callable[[], Iterable[str]]) -> List[Any]:
        """What is ready after at most so many seconds, which aren't waited for if nothing else can come. `ask` waits.

        `watched`: what else the reactor watches, in words.
        """
        if seconds is None or seconds < LEAST:
            return ask(seconds)
        began, left = _seconds(), seconds
        found: List[Any] = []
        why = reason = self._why_not(watched)
        while why and left > 0:
            found = ask(min(left, _STEP))
            if found:
                break
            left = seconds - (_seconds() - began)
            why = self._why_not(watched)
        if reason:
            self._note_wait(reason, _seconds() - began)
        if found or left <= 0:
            return found
        found = ask(0.0)  # (what a thread has posted that has ended since)
        if not found:
            self._jump(left)
        return found

    def _why_not(self, watched: Callable[[], Iterable[str]]) -> str:
        """Why something else than time can come; an empty text, if it can't."""
        working = self._working()
        if working:
            return working
        if _has_children():
            return "a process runs"
        for words in watched():
            return f"{words} is watched"
        return "a timer of the system runs" if signal.getitimer(signal.ITIMER_REAL)[0] else ""

    def _working(self) -> str:
        """Which thread works; an empty text, if none does."""
        states = [pool._team.statistics() for pool in list(self._pools)]
        if threading.active_count() == 1 + sum(state.idleWorkerCount for state in states):
            return ""
        own = threading.current_thread()
        others = [thread.name for thread in threading.enumerate() if thread is not own and not thread.name.startswith("PoolThread-")]
        return f"the thread {others[0]} works" if others else "a thread of a pool works"

    def _jump(self, seconds: float) -> None:
        self._jumped += seconds
        self.waits = self.waits.with_more(Waits(1, seconds))
        self._write(JUMPED, f"{seconds}")

    def _note_wait(self, why: str, seconds: float) -> None:
        if seconds >= LEAST:
            self.waits = self.waits.with_more(Waits(0, 0.0, seconds, Counter([why])))
            self._write(WAITED, why, f"{seconds}")

    def _write(self, *fields: str) -> None:
        if self._left > 0 and self._log is not None:
            self._left -= 1
            self._log.write(*fields)


def _has_children() -> bool:
    """Whether this process has a child, of whatever making, which may have ended."""
    try:
        os.waitid(os.P_ALL, 0, os.WEXITED | os.WNOHANG | os.WNOWAIT)
    except ChildProcessError:
        return False
    return True
