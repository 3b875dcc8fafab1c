"""What `deferreds` does where an inline body is cancelled: there is no hidden Deferred, and only the body fires its own."""

from __future__ import annotations

import contextlib
from typing import Any, Callable, Iterator

from twisted.internet import defer
from twisted.internet.defer import Deferred

from ..instruments import deferreds
from ..telling import watched
from .replacing import replaced


class Cancelling:
    """How a cancel of an inline body goes on. `awaiting`: `cancelled-inline`; `running`: `cancelled-running-inline`."""

    def __init__(self, awaiting: bool, running: bool) -> None:
        self._awaiting = awaiting
        self._running = running

    @contextlib.contextmanager
    def put(self) -> Iterator[None]:
        """Has this rule hold."""
        with replaced(defer, "_inlineCallbacks", _keeping_status), replaced(Deferred, "cancel", self._cancelling):
            yield

    def _cancelling(self, cancel: Callable[[Any], None]) -> Callable[[Any], None]:
        def cancelled(self_: Any) -> None:
            watcher = watched.observer
            is_open_body = watcher is not None and not self_.called and deferreds.is_inline_canceller(self_._canceller)
            if not is_open_body:
                cancel(self_)
            elif _awaits(self_) and self._awaiting:
                deferreds._cancelled(self_, _cancel_awaited)
            elif not _awaits(self_) and self._running:
                deferreds._cancelled(self_, lambda deferred: None)
            else:
                cancel(self_)

        return cancelled


def _awaits(deferred: Any) -> bool:
    """Whether the body of a Deferred awaits another."""
    watcher = watched.observer
    frame = None if watcher is None else watcher.record(deferred).body
    return frame is not None and frame.awaits


def _cancel_awaited(deferred: Any) -> None:
    deferred._dv_status.waitingOn.cancel()


def _keeping_status(run: Callable[..., None]) -> Callable[..., None]:
    """The function that runs a body, which has the Deferred of the body know what that awaits."""

    def running(result: object, gen: Any, status: Any, *context: Any) -> None:
        status.deferred._dv_status = status
        run(result, gen, status, *context)

    return running
