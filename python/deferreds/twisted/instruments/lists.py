"""The instrument of DeferredList and `gatherResults`."""

from __future__ import annotations

import functools
import sys
from typing import Any, Callable, Iterable, List, Tuple

from twisted.internet import defer
from twisted.internet.defer import Deferred
from ..profile import Entry
from ..telling import Action, Observer, Record, observer_of, watched

#: typed as a function by Twisted, since its overloads say what it gives
DeferredList: Any = defer.DeferredList

_init = DeferredList.__init__
_gather = defer.gatherResults
_parse = defer._parseDeferredListResult

#: classes of which Python asks no code of the program's whether a value of them is true
_TRUTHS = (bool, int, str, list, tuple)

_CANCELLER_RAISED = "Exception raised from user supplied"


def _act(
    watcher: Observer,
    word: str,
    children: List[Deferred[Any]],
    flags: List[Tuple[str, bool]],
    make: Callable[[], Any],
) -> Any:
    """Performs the action that makes a list."""
    records = [watcher.record(child) for child in children]
    action = Action([word, None, records, [name for name, is_set in flags if is_set]])

    def made(deferred: Deferred[Any], record: Record) -> None:
        action[1] = record
        record.kind = "list"

    def expecting() -> Any:
        watcher.expect(made)
        return make()

    return watcher.act(action, expecting)


def _instrumented_init(
    self: Any,
    deferredList: Iterable[Deferred[Any]],
    fireOnOneCallback: bool = False,
    fireOnOneErrback: bool = False,
    consumeErrors: bool = False,
) -> None:
    watcher = observer_of("list")
    flags = (fireOnOneCallback, fireOnOneErrback, consumeErrors)
    if watcher is None or watcher.quiet:
        _init(self, deferredList, *flags)
        return
    children = list(deferredList)
    if not all(isinstance(child, Deferred) for child in children):
        watcher.problem("a DeferredList of things that aren't Deferreds", "list")
        _init(self, children, *flags)
        return
    names = ("fireOnOneCallback", "fireOnOneErrback", "consumeErrors")
    _act(
        watcher, "list", children, list(zip(names, flags)), lambda: _init(self, children, *flags)
    )


def _instrumented_gather(
    deferredList: Iterable[Deferred[Any]], consumeErrors: bool = False
) -> Any:
    watcher = observer_of("list")
    if watcher is None or watcher.quiet:
        return _gather(deferredList, consumeErrors)
    children = list(deferredList)
    return _act(
        watcher,
        "gather",
        children,
        [("consumeErrors", consumeErrors)],
        lambda: _gather(children, consumeErrors),
    )


@functools.wraps(_parse)
def _instrumented_parse(resultList: Any, *args: Any, **kwargs: Any) -> Any:
    watcher = observer_of("list")
    if watcher is not None and watcher.quiet:
        passing = watcher.frame.passing
        if not _are_results(resultList):
            watcher.quirk(Entry.GATHER_FIRED_BY_HAND)
        elif passing is not None and passing[0] is resultList and not _are_results(passing[1].value):
            watcher.problem("a gatherResults is fired by hand with a list that isn't shown in full", "list")
    return _parse(resultList, *args, **kwargs)


def _are_results(value: object) -> bool:
    """Whether it is what a DeferredList of successes is fired with."""
    return isinstance(value, (list, tuple)) and all(
        isinstance(item, (list, tuple)) and len(item) == 2 and type(item[0]) in _TRUTHS and item[0] for item in value
    )


def failed_now() -> BaseException:
    """The error that is being handled."""
    failure = sys.exc_info()[1]
    assert failure is not None
    return failure


class _Log:
    """The log of twisted.internet.defer, in which the error of a child's canceller is logged."""

    def __init__(self, log: Any) -> None:
        self._log = log

    def failure(self, text: str, *args: Any, **kwargs: Any) -> Any:
        """Logs a failure."""
        watcher = watched.observer
        if watcher is not None and watcher.quiet and text.startswith(_CANCELLER_RAISED):
            watcher.tell("unhandled ", watcher.texts.failure(failed_now()))
        return self._log.failure(text, *args, **kwargs)

    def __getattr__(self, name: str) -> Any:
        return getattr(self._log, name)


def install() -> None:
    """Puts the instrument into twisted.internet.defer."""
    setattr(DeferredList, "__init__", functools.wraps(_init)(_instrumented_init))
    setattr(defer, "gatherResults", functools.wraps(_gather)(_instrumented_gather))
    setattr(defer, "_parseDeferredListResult", _instrumented_parse)
    setattr(defer, "log", _Log(getattr(defer, "log")))
