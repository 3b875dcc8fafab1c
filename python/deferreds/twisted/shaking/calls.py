"""Names delayed calls, and notes when they run."""

from __future__ import annotations

from typing import Any, Callable

from twisted.internet import base

from .naming import Counts, Name, cleaned, name_of_function, place_of_program
from .shaker import Shaker


class _Called:
    """The attribute `called` of delayed calls, which the reactor sets right before it runs one."""

    def __init__(self, shaker: Shaker) -> None:
        self._shaker = shaker

    def __get__(self, call: Any, owner: object = None) -> Any:
        return self if call is None else call.__dict__["called"]

    def __set__(self, call: Any, value: Any) -> None:
        call.__dict__["called"] = value
        name = call.__dict__.get("_shake_name")
        if value and name is not None and not call.cancelled:
            self._shaker.come(f"call {name.key}", name.words)


def shake(shaker: Shaker) -> None:
    """Names all delayed calls that are made from now on."""
    make: Callable[..., None] = base.DelayedCall.__init__
    counts = Counts()

    def __init__(self: Any, time: float, func: Callable[..., Any], *args: Any, **kwargs: Any) -> None:
        make(self, time, func, *args, **kwargs)
        place, called = place_of_program(), name_of_function(self.func)  # (which is the program's, also if it is recorded)
        which = place or cleaned(called)
        number = counts.next(which)
        at = f" made at {place}" if place else " of Twisted's"
        self._shake_name = Name(f"{which}#{number}", f"delayed call {number}{at} ({called})")

    setattr(base.DelayedCall, "__init__", __init__)
    if shaker.follows:
        setattr(base.DelayedCall, "called", _Called(shaker))
