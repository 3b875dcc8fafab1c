"""What `deferreds` does where a Deferred is unpaused without a pause, or cancelled, or a gathering is fired by hand."""

from __future__ import annotations

import contextlib
import functools
from typing import Any, Callable, ContextManager, Iterator

from twisted.internet import defer
from twisted.internet.defer import Deferred

from ..instruments import deferreds, lists
from ..telling import watched
from .replacing import replaced

_Cancel = Callable[[Any], None]


def unpausing() -> ContextManager[None]:
    """`unpause-at-zero`: an `unpause` of what isn't paused raises an error, and changes nothing."""
    return replaced(Deferred, "unpause", _unpausing)


def _unpausing(unpause: _Cancel) -> _Cancel:
    def unpaused(self: Any) -> None:
        watcher = watched.observer
        if watcher is not None and not watcher.quiet and watcher.record(self).pauses == 0:
            raise AssertionError("not paused")
        unpause(self)

    return unpaused


@contextlib.contextmanager
def cancelling_in_circles() -> Iterator[None]:
    """`circle-of-waits`: a cancel in a circle of waits is only logged."""
    with replaced(Deferred, "cancel", _only_logging), replaced(defer.DeferredList, "cancel", _only_logging):
        yield


def _only_logging(cancel: _Cancel) -> _Cancel:
    def cancelled(self: Any) -> None:
        if deferreds._waits_in_a_circle(self):
            deferreds._cancelled(self, lambda deferred: None)
        else:
            cancel(self)

    return cancelled


def cancelling_lists() -> ContextManager[None]:
    """`cancel-of-a-fired-list`: a cancel of a fired list that waits reaches what it waits for."""
    return replaced(defer.DeferredList, "cancel", _following_waits)


def _following_waits(cancel: _Cancel) -> _Cancel:
    def cancelled(self: Any) -> None:
        if self.called:
            deferreds._cancelled(self, _cancel_held)
        else:
            cancel(self)

    return cancelled


def _cancel_held(deferred: Any) -> None:
    watcher, held = watched.observer, deferreds.result_of(deferred)
    if isinstance(held, Deferred):
        if watcher is not None:
            watcher.forwarded = held
        held.cancel()


def gathering() -> ContextManager[None]:
    """`gather-fired-by-hand`: whatever isn't a list of lists of two is a TypeError."""
    return replaced(defer, "_parseDeferredListResult", _second_parts)


def _second_parts(parse: Callable[..., Any]) -> Callable[..., Any]:
    @functools.wraps(lists._parse)
    def parsed(results: Any, *args: Any, **kwargs: Any) -> Any:
        if not isinstance(results, list) or not all(isinstance(each, (list, tuple)) and len(each) == 2 for each in results):
            raise TypeError("gather")
        return [second for _, second in results]

    return parsed
