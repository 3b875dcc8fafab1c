"""The instruments: each has Twisted's own code tell what it does to the observer that is on.

They know functions and pairs of Twisted by names, which another version may have changed. So the import of this package
refuses a Twisted that lacks a name, and `install` refuses one under which the self-test logs other lines than expected.
"""

from __future__ import annotations

from types import FunctionType
from typing import Any, Callable, Iterator, List, NamedTuple, Optional

from ..known import UnknownTwisted, refuse_unusable, version

refuse_unusable()
try:
    from twisted.internet import base, defer, task

    from . import (
        calls,
        clock,
        deferreds,
        inline,
        jobs,
        lists,
        locks,
        loops,
        maybe,
        queues,
        reactors,
        scheduled,
        starts,
        tasks,
        timers,
        tracebacks,
    )
except ModuleNotFoundError:
    raise
except (AttributeError, ImportError) as missing:
    raise UnknownTwisted(f"Twisted {version()} isn't known: {missing}") from missing

class _Function(NamedTuple):
    """A function of Twisted's, in a module or a class of these."""

    place: Any
    name: str
    function: FunctionType


def _functions() -> Iterator[_Function]:
    """The functions that the instruments may replace."""
    for module in (base, defer, task):
        for place in (module, *(each for each in vars(module).values() if isinstance(each, type) and each.__module__ == module.__name__)):
            for name, function in vars(place).items():
                if isinstance(function, FunctionType):
                    yield _Function(place, name, function)


def _keep_names(before: List[_Function]) -> None:
    """Has functions be called as those in whose place they are: asyncio and Twisted show what they call by its name."""
    for place, name, function in before:
        now = vars(place).get(name)
        if now is not function and isinstance(now, FunctionType):
            now.__module__, now.__name__, now.__qualname__ = function.__module__, function.__name__, function.__qualname__


#: what tries the instruments, once they are put in
_check: Optional[Callable[[], None]] = None


def install() -> None:
    """Puts all instruments into Twisted, once, and tries them. Where no observer is on, Twisted is as it was.

    Raises UnknownTwisted where the self-test logs other lines than expected.
    """
    global _check
    if _check is None:
        from ..self_test import check

        _check = check
        before = list(_functions())
        for instrument in (deferreds, lists, maybe, locks, queues, clock, reactors, starts, calls, jobs, timers, loops, inline, tasks):
            instrument.install()
        _keep_names(before)
        scheduled.install()
        tracebacks.install()
    _check()
