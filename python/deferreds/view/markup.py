"""References and phrases as pieces of a page."""

from __future__ import annotations

from typing import Set

from .fold import Fold
from .phrases import OfDeferred, OfEvent, OfLine, OfPlace, OfScript, OfTime, Part, Phrase
from .places import Place
from .scripts import Script
from .texts import Html, clipped, escaped, joined, shortened
from .units import time_of

_MOST_PART, _MOST_EVENT, _MOST_PLACE = 300, 80, 60


class Markup:
    """Writes references to lines and Deferreds, which are links where the page has what they refer to."""

    def __init__(self, fold: Fold, script: Script, rows: range, tick: str = "") -> None:
        self._fold = fold
        self._script = script
        #: the rows that the page has
        self._rows = rows
        self._tick = tick
        #: the Deferreds that were named
        self.named: Set[int] = set()

    def line(self, row: int) -> Html:
        """A line of the journal."""
        return Html(f"<a href=#row={row + 1}>line&nbsp;{row + 1}</a>" if row in self._rows else f"line&nbsp;{row + 1}")

    def deferred(self, number: int, named: bool = True) -> Html:
        """A Deferred, with its name or without: a link to the row in which it was made, or to its tree."""
        record = self._fold.records.get(number)
        name = f" {record.name}" if named and record is not None and record.name else ""
        text = escaped(f"#{number}{name}")
        if record is None:
            return text
        self.named.add(number)
        target = f"row={record.row + 1}" if record.row in self._rows else f"d={number}"
        return Html(f'<a data-f={number} href="#{target}">{text}</a>')

    def said(self, phrase: Phrase, most: int = _MOST_PART) -> Html:
        """A phrase."""
        return joined(self._part(part, most) for part in phrase)

    def _part(self, part: Part, most: int) -> Html:
        if isinstance(part, OfDeferred):
            return self.deferred(part.number)
        if isinstance(part, OfLine):
            return self.line(part.row)
        if isinstance(part, OfEvent):
            shown = self._script.shown(part.number)
            text = isolated(clipped(shown, min(most, _MOST_EVENT))) if shown else Html("")
            return Html(f"event {part.number} {text}".rstrip())
        if isinstance(part, OfPlace):
            return placed(part.place)
        if isinstance(part, OfTime):
            return escaped(time_of(part.time, self._tick))
        return isolated(shortened(part.text, most)) if isinstance(part, OfScript) else escaped(part)


def isolated(text: str) -> Html:
    """A text of a script, whose direction changes nothing round it."""
    return Html(f"<bdi>{escaped(text)}</bdi>")


def placed(place: Place) -> Html:
    """A line of a file: a link to the file, where its path is known as a whole; it leads out of a frame."""
    shown, title = isolated(clipped(place.text, _MOST_PLACE)), escaped(place.whole)
    if place.address is None:
        return Html(f'<span class=at title="{title}">{shown}</span>')
    return Html(f'<a class=at target=_top href="{escaped(place.address)}" title="{title}">{shown}</a>')
