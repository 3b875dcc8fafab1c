"""What `deferreds` does where other code has fired the Deferred of a LoopingCall."""

from __future__ import annotations

from typing import Any, Callable, ContextManager

from twisted.internet.defer import Deferred

from ..instruments.deferreds import PairArguments, add_silently, special_pairs
from ..telling import Observer, Record
from .replacing import replaced_item

_ERRBACK = "LoopingCall.__call__.<locals>.eb"


def ending() -> ContextManager[None]:
    """`loop-fired-by-hand`: a turn has one pair, whose AlreadyCalledError the turn's Deferred has."""
    instrument = special_pairs[_ERRBACK]

    def add(
        watcher: Observer,
        deferred: Deferred[Any],
        record: Record,
        callback: Callable[..., Any],
        errback: Callable[..., Any],
        arguments: PairArguments,
    ) -> bool:
        loop: Any = errback.__closure__[0].cell_contents if errback.__closure__ else None

        def failed(failure: object) -> object:
            if loop._deferred is None:
                return failure
            watcher.tell("run ", record)
            try:
                return errback(failure)
            finally:
                record.ran = True

        if not watcher.quiet or loop is None:
            return instrument(watcher, deferred, record, callback, errback, arguments)
        add_silently(deferred, callback, failed, arguments)
        return True

    return replaced_item(special_pairs, _ERRBACK, add)
