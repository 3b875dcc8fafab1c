"""What the view itself says: words with references among them, which each form shows in its own way."""

from __future__ import annotations

from typing import NamedTuple, Sequence, Tuple, Union

from .places import Place


class OfDeferred(NamedTuple):
    """A Deferred, shown by its number and its name."""

    number: int


class OfLine(NamedTuple):
    """A line of the journal, by its place from 0."""

    row: int


class OfEvent(NamedTuple):
    """An event of the script, by its place from 0."""

    number: int


class OfScript(NamedTuple):
    """A text of the script or of the journal, which is shown as it is and holds no reference, whatever it looks like."""

    text: str


class OfPlace(NamedTuple):
    """A line of a file of the program."""

    place: Place


class OfTime(NamedTuple):
    """A time of the clock, in ticks."""

    time: int


Part = Union[str, OfDeferred, OfLine, OfEvent, OfScript, OfPlace, OfTime]
Phrase = Tuple[Part, ...]


def words(*parts: Part) -> Phrase:
    """These parts, one after the other."""
    return parts


def listed(parts: Sequence[Part], most: int) -> Phrase:
    """The parts with commas between them, where there are more than `most` these and an ellipsis."""
    said: Phrase = ()
    for part in parts[:most]:
        said += (", ", part) if said else (part,)
    return said + (" …",) if len(parts) > most else said
