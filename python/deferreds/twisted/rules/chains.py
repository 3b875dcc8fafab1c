"""What `deferreds` does where callbacks are run: pauses count everywhere, and no pair is lost."""

from __future__ import annotations

from typing import Any, Callable, ContextManager, List

from twisted.internet import defer
from twisted.python.failure import Failure

from ..instruments import deferreds
from ..telling import is_deferred
from .replacing import replaced

_NO_RESULT = object()
_DebugInfo: Callable[[], Any] = getattr(defer, "DebugInfo")
_FAILURE: Callable[[], Failure] = Failure


class Running:
    """Twisted's loop over the callbacks of a chain of Deferreds, with another rule where a Deferred is paused."""

    def __init__(self, goes_on: bool, asks_each_time: bool) -> None:
        #: whether those that handed a value over to a paused Deferred go on
        self._goes_on = goes_on
        #: whether the pauses are looked at before each pair, and not only before the first
        self._asks_each_time = asks_each_time

    def run(self, first: Any) -> None:
        """Runs the callbacks of a Deferred, and of those that it hands a value over to."""
        if first._runningCallbacks:
            return
        chain = [first]
        while chain:
            current = chain[-1]
            if current.paused and not self._goes_on:
                return
            if current.paused or not self._run_pairs(current, chain):
                chain.pop()

    def _run_pairs(self, current: Any, chain: List[Any]) -> bool:
        """Runs pairs of a Deferred, up to a hand-over. Whether it has come to one."""
        current._chainedTo = None
        while current.callbacks:
            of_value, of_failure = current.callbacks.pop(0)
            callback, args, kwargs = of_failure if isinstance(current._dv_result, Failure) else of_value
            if callback is deferreds._CONTINUE:
                _hand_over(current, args[0])
                chain.append(args[0])
                return True
            _run_side(current, callback, args, kwargs)
            if is_deferred(current._dv_result) and _waits(current):
                break
            if self._asks_each_time and current.paused:
                break
        _note_failure(current)
        return False


def _hand_over(giver: Any, taker: Any) -> None:
    taker._dv_told_result = giver._dv_result
    giver._dv_told_result = None
    if giver._debugInfo is not None:
        giver._debugInfo.failResult = None
    taker.paused -= 1


def _run_side(current: Any, callback: Callable[..., Any], args: Any, kwargs: Any) -> None:
    try:
        current._runningCallbacks = True
        try:
            current._dv_told_result = callback(current._dv_result, *args, **kwargs)
        finally:
            current._runningCallbacks = False
    except BaseException:
        current._dv_told_result = _FAILURE()


def _waits(current: Any) -> bool:
    """A side has given a Deferred, whose value is taken, or for which it waits from here on."""
    held = current._dv_result
    value = getattr(held, "_dv_result", _NO_RESULT)
    if value is _NO_RESULT or is_deferred(value) or held.paused:
        current.pause()
        current._chainedTo = held
        held.callbacks.append(current._continuation())
        return True
    held._dv_told_result = None
    if held._debugInfo is not None:
        held._debugInfo.failResult = None
    current._dv_told_result = value
    return False


def _note_failure(current: Any) -> None:
    """Has a failure that nothing has taken be known to what logs it once the Deferred is gone."""
    failed = current._dv_result if isinstance(current._dv_result, Failure) else None
    if failed is not None and current._debugInfo is None:
        current._debugInfo = _DebugInfo()
    if current._debugInfo is not None:
        current._debugInfo.failResult = failed


def running(goes_on: bool, asks_each_time: bool) -> ContextManager[None]:
    """Has callbacks be run so. `goes_on`: `paused-receiver` and `abandoned-chain`; `asks_each_time`: `pause-in-own-side`."""
    return replaced(deferreds, "_run_telling", lambda before: Running(goes_on, asks_each_time).run)
