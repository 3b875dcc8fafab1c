"""What `deferreds` does where a delayed call is moved: the order at one time, and the times that a call may have."""

from __future__ import annotations

from typing import Any, Callable, ContextManager

from twisted.internet import base, task

from ..grammar import LATEST
from .replacing import replaced


def ordering() -> ContextManager[None]:
    """`reset-order`: calls that are due at one time run in order of scheduling."""
    return replaced(task.Clock, "_sortCalls", _ordering)


def _ordering(sort: Callable[[Any], None]) -> Callable[[Any], None]:
    def sorted_(self: Any) -> None:
        self.calls.sort(key=lambda call: (call.getTime(), call._dv_number))

    return sorted_


def bounding() -> ContextManager[None]:
    """`delay-bounds`: a call that is delayed is due now at the earliest, and at the language's last time at the latest."""
    return replaced(base.DelayedCall, "delay", _bounding)


def _bounding(delay: Callable[[Any, float], None]) -> Callable[[Any, float], None]:
    def delayed(self: Any, seconds: float) -> None:
        due = self.getTime()
        delay(self, min(max(due + seconds, self.seconds()), LATEST) - due)

    return delayed
