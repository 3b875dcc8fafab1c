"""The arguments of inline bodies and coroutines, as texts in bounded room."""

from __future__ import annotations

import inspect
from types import CodeType, CoroutineType, GeneratorType
from typing import Any, Dict, Iterator, List, NamedTuple, Tuple

from ..telling import Action
from ..texts import Shown
from .values import written

#: the classes of bodies whose arguments can be seen
WITH_ARGUMENTS = frozenset({GeneratorType, CoroutineType})
#: how many arguments of a call are shown, and how many characters of each, and of all
MOST, LONGEST, MOST_CHARACTERS = 8, 60, 160
#: the names of first arguments that are left out: the object of a method
_OWN = frozenset({"self", "cls"})


class Call(NamedTuple):
    """A call of a function that an action has begun: its name, and the names and values of its arguments."""

    action: Action
    function: str
    arguments: List[Tuple[str, Shown]]

    @property
    def text(self) -> str:
        """The call as Python has it: `transfer(source="dan", amount=9)`."""
        shown = [f"{name}={_cut(written(value), LONGEST)}" for name, value in self.arguments]
        return f"{self.function}({_cut(', '.join(shown), MOST_CHARACTERS)})"


def arguments_of(body: Any) -> Iterator[Tuple[str, Any]]:
    """The names and values of what a generator or a coroutine was called with that hasn't begun to run."""
    frame = body.gi_frame if type(body) is GeneratorType else body.cr_frame
    if frame is None:
        return
    values = frame.f_locals
    found = list(_named(frame.f_code, values))
    if type(values) is dict:
        # (Python keeps this copy as long as the frame lives, and what is in it)
        values.clear()
    yield from found[:MOST]


def _named(code: CodeType, values: Dict[str, Any]) -> Iterator[Tuple[str, Any]]:
    count = code.co_argcount + code.co_kwonlyargcount
    names = code.co_varnames
    for place, name in enumerate(names[:count]):
        if name in values and (place > 0 or name not in _OWN):
            yield name, values[name]
    if code.co_flags & inspect.CO_VARARGS:
        yield f"*{names[count]}", values.get(names[count], ())
        count += 1
    if code.co_flags & inspect.CO_VARKEYWORDS:
        yield from dict(values.get(names[count], {})).items()


def _cut(text: str, most: int) -> str:
    return text if len(text) <= most else f"{text[: most - 2]}.."
