"""Lists of what is recorded, whose first items may be in the notes alone: their lengths and places count these."""

from __future__ import annotations

from typing import Any, Callable, List, Tuple, TypeVar

from .bodies import Body, Run

_Item = TypeVar("_Item")
_length: Callable[[List[Any]], int] = list.__len__
_item: Callable[[List[Any], Any], Any] = list.__getitem__


class Window(List[_Item]):
    """The last items of a list. Those before them are counted, and can't be had any more."""

    __slots__ = ("before",)

    def __init__(self) -> None:
        super().__init__()
        #: how many come before those that are here
        self.before = 0

    def __len__(self) -> int:
        return self.before + _length(self)

    def __getitem__(self, place: Any) -> Any:
        """The item of this place; of a slice, which has no step, those that are here."""
        if isinstance(place, slice):
            first, last, _ = place.indices(len(self))
            return _item(self, slice(max(0, first - self.before), max(0, last - self.before)))
        return _item(self, place if place < 0 else place - self.before)

    @property
    def here(self) -> List[_Item]:
        """The items that are here."""
        found: List[_Item] = _item(self, slice(None))
        return found

    def drop(self, kept: int = 0) -> None:
        """Drops all items but the last ones, so many."""
        dropped = max(0, _length(self) - kept)
        del self[:dropped]
        self.before += dropped


class Runs(List[Run]):
    """The runs of a body whose number in the notes this is. Those that are in the notes are counted, and aren't here."""

    __slots__ = ("number", "before", "_begun")

    def __init__(self, number: int, begun: "Callable[[Tuple[Runs, Run]], object]") -> None:
        """`begun` gets this and each run that begins."""
        super().__init__()
        self.number = number
        self.before = 0
        self._begun = begun

    def __len__(self) -> int:
        return self.before + _length(self)

    def append(self, run: Run) -> None:
        """A run begins."""
        self._begun((self, run))
        super().append(run)

    def drop(self) -> None:
        """Drops those that are here."""
        self.before += _length(self)
        self.clear()


class NotedBody(Body):
    """A body that has a number in the notes."""

    def __init__(self, kind: str, depth: int, runs: Runs) -> None:
        self.kind = kind
        self.depth = depth
        self.runs = runs


def windowed(items: List[_Item]) -> Window[_Item]:
    """A window that has these items."""
    window: Window[_Item] = Window()
    window.extend(items)
    return window
