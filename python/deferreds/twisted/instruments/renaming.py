"""Functions of Twisted's that find an attribute under another name. The rest of their code stays as it is, so tracebacks do, too."""

from __future__ import annotations

import dis
from types import FunctionType
from typing import Any, Callable

_SETS = dis.opmap["STORE_ATTR"]


def direct(function: Callable[..., Any], method: str, other: str) -> Callable[..., Any]:
    """The function, which calls another method where it calls this one. One that doesn't is given as it is."""
    calls = method in getattr(function, "__code__").co_names
    return renamed(function, method, other, other) if calls else function


def renamed(function: Callable[..., Any], attribute: str, read: str, set_: str) -> Callable[..., Any]:
    """The function, which reads the attribute under the name `read`, and sets it under the name `set_`. So do its calls of `getattr`.

    Raises AttributeError where it uses no attribute of this name.
    """
    code = getattr(function, "__code__")
    if attribute not in code.co_names:
        raise AttributeError(f"{code.co_name} has no attribute {attribute}")
    at = code.co_names.index(attribute)
    names = [*code.co_names, set_]
    names[at] = read
    instructions = bytearray(code.co_code)
    for place in range(0, len(instructions), 2):
        if instructions[place] == _SETS and instructions[place + 1] == at:
            instructions[place + 1] = len(names) - 1
    constants = tuple(read if type(constant) is str and constant == attribute else constant for constant in code.co_consts)
    changed = code.replace(co_code=bytes(instructions), co_names=tuple(names), co_consts=constants)
    given = (getattr(function, part) for part in ("__globals__", "__name__", "__defaults__", "__closure__"))
    return FunctionType(changed, *given)
