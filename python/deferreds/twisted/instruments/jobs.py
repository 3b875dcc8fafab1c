"""The instrument of `deferToThread` and `deferToThreadPool` on a real reactor: jobs, whose results come at their times.

What a job does in its thread isn't told. Its result is handed to the reactor by Twisted's own function, which is given a reactor of
which it asks for one call.
"""

from __future__ import annotations

import functools
import sys
import weakref
from typing import Any, Callable, List, Optional

from twisted.internet import threads
from twisted.internet.defer import Deferred
from twisted.python.failure import Failure

from ..grammar import MOST_JOBS, MOST_POOLS, WORKERS
from ..telling import Action, Observer, Pool, Record, Thing, observer_of, watched
from .clock import tell_due
from .pace import Pace, Waiting, has_clock, is_real

_defer: Callable[..., Any] = threads.deferToThreadPool


class _Handing:
    """The reactor as one job sees it, to which its result is handed."""

    def __init__(self, watcher: Observer, reactor: Any, number: int) -> None:
        self._watcher = watcher
        self._reactor = reactor
        self._number = number
        #: the result of the job, as its action has it
        self.work: List[Any] = ["value", None]
        self.waiting: Optional[Waiting] = None

    def callFromThread(self, fire: Callable[[Any], None], result: Any) -> None:
        """Has the reactor fire the Deferred of the job."""
        self._reactor.callFromThread(self._come, fire, result)

    def _come(self, fire: Callable[[Any], None], result: Any) -> None:
        """The result has reached the reactor."""
        watcher = self._watcher
        if watched.observer is not watcher or self.waiting is None:
            fire(result)
            return
        if isinstance(result, Failure):
            self.work[:] = watcher.raised(watcher.texts.error_of(result))
        else:
            self.work[1] = watcher.value(watcher.texts.outcome(result))
        watcher.has_result(self.work)
        line = (f"deliver {self._number}",)
        watcher.pace.run(self.waiting, functools.partial(tell_due, watcher, None, line, functools.partial(fire, result)))


def _instrumented_defer(reactor: Any, threadpool: Any, f: Callable[..., Any], *args: Any, **kwargs: Any) -> Any:
    watcher = observer_of("thread")
    if watcher is None or watcher.quiet or not is_real(reactor) or not has_clock(watcher, reactor):
        return _defer(reactor, threadpool, f, *args, **kwargs)
    return _act(watcher, reactor, threadpool, functools.partial(f, *args, **kwargs))


def _act(watcher: Observer, reactor: Any, threadpool: Any, f: Callable[[], Any]) -> Any:
    pace: Pace = watcher.pace
    number = watcher.jobs
    watcher.jobs += 1
    if number >= MOST_JOBS:
        watcher.problem(f"more than {MOST_JOBS} jobs of threads", "thread")
    handing = _Handing(watcher, reactor, number)
    action = Action(["thread", None, None, handing.work])
    if threadpool is not reactor.threadpool:
        action = Action(["threadIn", None, _thing_of(watcher, threadpool), None, handing.work])

    def made(deferred: Deferred[Any], record: Record) -> None:
        action[1] = record
        watcher.tell(f"job {number} ", record)

    def submit() -> Any:
        watcher.expect(made)
        handing.waiting = pace.job()
        action[-2] = handing.waiting.delay
        deferred = _defer(handing, threadpool, f)
        watcher.tell(f"later job {number} ", handing.waiting.due)
        return deferred

    return watcher.act(action, submit)


def _thing_of(watcher: Observer, threadpool: Any) -> Thing:
    """The name of a pool that isn't the reactor's."""
    for pool in watcher.pools:
        if pool.threads() is threadpool:
            return pool.thing
    if len(watcher.pools) == MOST_POOLS:
        watcher.problem(f"more than {MOST_POOLS} pools of threads beside the reactor's", "thread")
    workers = getattr(threadpool, "max", 1)
    pool = Pool(weakref.ref(threadpool), watcher.thing("pool"), min(max(workers, WORKERS[0]), WORKERS[-1]))
    watcher.pools = (*watcher.pools, pool)
    return pool.thing


def install() -> None:
    """Puts the instrument into `threads`, and into the modules of Twisted that have imported the function from there."""
    for name, module in list(sys.modules.items()):
        if name.startswith("twisted.") and getattr(module, "__dict__", {}).get("deferToThreadPool") is _defer:
            setattr(module, "deferToThreadPool", _instrumented_defer)
