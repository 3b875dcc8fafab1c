"""Declares bodies that lie too deep in others: the script names them, and a name has no depth."""

from __future__ import annotations

from typing import Any, Dict, List

from .. import grammar
from .bodies import SHALLOW, Body

#: how deep arrays and objects lie in each other in a body that is declared, at least. What is around a body in the next one, up to ten
#: more, has room above that
_TALL = 90
#: how deep an event of a script may be
MOST_OF_EVENT = grammar.DEEPEST - 2
#: how much of the name of an object is in that of a body
_LONGEST = 26

#: a body with its name, as the script declares it
Pair = List[Any]


class Declared:
    """The bodies that a script declares. A body is said after those that lie in it."""

    def __init__(self) -> None:
        self.pairs: List[Pair] = []
        self._bodies: List[Body] = []
        #: whether bodies that are too tall are declared
        self.is_on = False
        #: by the numbers of Python for arrays and objects of the script, how deep others lie in them
        self._heights: Dict[int, int] = {}

    def begin_event(self, is_on: bool) -> None:
        """An event is said. Bodies are declared only where that is on."""
        self.is_on = is_on
        self._heights.clear()

    def measure(self, said: Any) -> int:
        """Keeps how deep arrays and objects lie in what is said, as long as its event is said."""
        height = self._heights[id(said)] = self.height(said)
        return height

    def height(self, said: Any) -> int:
        """How deep arrays and objects lie in each other there."""
        if not isinstance(said, (list, dict)):
            return 0
        known = self._heights.get(id(said))
        if known is not None:
            return known
        return 1 + max(map(self.height, said.values() if isinstance(said, dict) else said), default=0)

    def can_name(self, body: Body, said: Any) -> bool:
        """Whether a body is so tall that its name stands for it, and its runs are among the parts of lines."""
        return self.is_on and body.depth > SHALLOW and self.height(said) > _TALL

    def name(self, body: Body, said: Any, after: str) -> str:
        """Declares a body by a name like that of an object, and gives the name."""
        body.name = f"{after[:_LONGEST]}_{len(self.pairs) + 1}"
        self.pairs.append([body.name, said])
        self._bodies.append(body)
        return body.name

    def most_ended(self) -> int:
        """How many events may have ended at most, so that no more bodies are declared than may be."""
        began = sorted(body.runs[0].began for body in self._bodies)
        return began[grammar.MOST_BODIES] - 1

    def forget(self) -> None:
        """Declares nothing any more."""
        for body in self._bodies:
            body.name = body.helper = None
        self.pairs.clear()
        self._bodies.clear()
        self.begin_event(False)
