"""What a delayed call says of its function: Twisted calls one that reports it, and other code that asks gets the program's."""

from __future__ import annotations

import sys
from types import FunctionType
from typing import Any, Callable, Optional

from twisted.internet import base, task

_STANDS_FOR = "_dv_stands_for"

#: the code objects of the functions of Twisted that call what is due. (To find a code by its value takes Python long.)
_ADVANCE, RUN = task.Clock.advance.__code__, base.ReactorBase.runUntilCurrent.__code__


class Unrecorded:
    """A function of Twisted's own that a reactor is asked to call, which isn't recorded as a delayed call of the program's."""

    __slots__ = ("_call", "stands_for")

    def __init__(self, call: Callable[[], Any], stands_for: Callable[..., Any]) -> None:
        self._call = call
        self.stands_for = stands_for

    def __call__(self) -> Any:
        return self._call()


def stand_for(telling: Callable[..., Any], function: Callable[..., Any]) -> None:
    """Has a delayed call with this function, which reports it, say that it has the program's."""
    telling.__dict__[_STANDS_FOR] = function


class _Function:
    """The attribute `func` of delayed calls."""

    def __get__(self, call: Any, owner: Optional[type] = None) -> Any:
        if call is None:
            return self
        try:
            function = call._dv_func
        except AttributeError:  # it was made before the instruments were put in, or is over
            function = call.__dict__.get("func", self)
            if function is self:
                raise AttributeError(f"{type(call).__name__!r} object has no attribute 'func'") from None
        if type(function) is not FunctionType and type(function) is not Unrecorded:
            return function
        code = sys._getframe(1).f_code
        if code is _ADVANCE or code is RUN:
            return function
        return function.stands_for if type(function) is Unrecorded else function.__dict__.get(_STANDS_FOR, function)

    def __set__(self, call: Any, function: Any) -> None:
        call._dv_func = function

    def __delete__(self, call: Any) -> None:
        try:
            del call._dv_func
        except AttributeError:
            if call.__dict__.pop("func", self) is self:
                raise AttributeError("func") from None


def install() -> None:
    """Puts the instrument into DelayedCall."""
    setattr(base.DelayedCall, "func", _Function())
