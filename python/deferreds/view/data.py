"""What the page of a run is drawn from: an object of JSON, which the scripts of the page read.

A row is the place of a line in the journal, from 0. The data has the rows of the page alone, from `first` on; the report beside it
is of all. Each text is as `visible` leaves it. Some rows alone have a value of a kind: these are `[rows, values]`, in which each
row is written as its distance from the one before.

| Key | What it has |
|---|---|
| `first`, `total` | the first row of the page, and how many lines the run has |
| `tick` | how many seconds a tick was; 0 if that isn't known |
| `shut` | whether folds are shut at first |
| `words` | the words with which lines begin; an empty one is of lines that aren't known |
| `lines` | the lines, as one text with a line feed between them |
| `kinds` | of each row: twice the place of its word in `words`, and 1 more if it shows a failure |
| `heads` | of each row: how many characters come before what is a script's own; 0 if there is nothing of that |
| `depths`, `sides` | of each row: how deep it lies, and in how many callbacks |
| `named` | of each row: the Deferred that it touches, -1 for none, an array for several |
| `times` | some rows of the whole run: the time from there on, in ticks |
| `why` | some rows: why they happened, as a phrase |
| `arrows` | some rows: `kind`, the Deferred from which an arrow comes or -1, and that to which it goes, of each arrow |
| `events` | some rows: the head of the event that begins there |
| `tails` | some rows: the words behind the line |
| `wholes` | some rows: the event as the script has it |
| `at`, `near` | some rows: the place of the event that begins there, and the place of the row itself |
| `files` | of each file of the program: its path, its name, its address or null |
| `places` | of each place: the number of its file, and the line |
| `functions`, `sources` | of each place: the function, or an empty text; the number of the first line around it and these lines, or null |
| `same` | some rows: how many equal lines begin there |
| `foreign` | the rows that tell of Twisted's own doing |
| `folds` | of each fold: its kind, the row that stays, the first and the last that it hides, how often turns come |
| `brackets` | of each bracket: its kind, the row in which it begins, that in which it ends or -1 |
| `deferreds` | the Deferreds of these rows, in columns: `numbers`; `ends`, how they ended, as places in `Ended`; `made` and `last`, the rows that name them first and last; `names`, and `written`: an array of those in `FIELDS`, as JSON. The last two are texts with a line for each |
| `stacks` | of some Deferreds, by their numbers: the places of the functions in which it was made, innermost first, part by part |
| `calls` | of some Deferreds, by their numbers: what the inline body was called with |
| `tables` | the numbers of the Deferreds in each table of outcomes, by the id of what holds it |
| `axis` | the end of the axis of time, its marks as pairs of a time and a text, and the Deferreds on it; or null |
| `copied` | the rows of the report as texts |

A phrase is an array: a text is the view's own, an array of one text is a script's, a number from 0 is a Deferred, one below that is
the row `-1 - number`, and an object has the number of a place.
"""

from __future__ import annotations

import json
from typing import Any, Dict, Iterable, List, Optional, Sequence, Tuple

from .axis import Axis
from .brackets import brackets_of
from .data_deferreds import columns_of
from .data_rows import RowData
from .events import Events
from .folding import Folding, same_lines
from .foreign import foreign_rows
from .outcomes import Outcomes
from .phrases import OfDeferred, OfEvent, OfLine, OfPlace, OfScript, OfTime, Part, Phrase
from .places import Place
from .records import ArrowKind, BracketKind, Record
from .run import Run
from .texts import Html, clipped, shortened, visible
from .units import seconds_of, time_of

__all__ = ["Data"]

_MOST_EVENT = 80
_ARROWS, _BRACKETS = list(ArrowKind), list(BracketKind)


class Sparse:
    """Values of some rows, which come in order."""

    def __init__(self) -> None:
        self._rows: List[int] = []
        self._values: List[Any] = []
        self._last = 0

    def add(self, row: int, value: Any) -> None:
        """The value of a row."""
        self._rows.append(row - self._last)
        self._values.append(value)
        self._last = row

    @property
    def form(self) -> Tuple[List[int], List[Any]]:
        """As the data have it."""
        return self._rows, self._values


class PlaceTable:
    """Places of the program, each with a number."""

    def __init__(self) -> None:
        self.files: List[Tuple[str, str, Optional[str]]] = []
        self.places: List[Tuple[int, int]] = []
        self._of_file: Dict[str, int] = {}
        self._of_place: Dict[Place, int] = {}

    @property
    def all(self) -> List[Place]:
        """The places, by number."""
        return list(self._of_place)

    def number(self, place: Place) -> int:
        """The number of a place."""
        known = self._of_place.get(place)
        if known is None:
            known = self._of_place[place] = len(self.places)
            self.places.append((self._file(place), place.line))
        return known

    def _file(self, place: Place) -> int:
        known = self._of_file.get(place.file)
        if known is None:
            known = self._of_file[place.file] = len(self.files)
            name = place.text.rpartition(":")[0]
            self.files.append((visible(place.file), visible(name), place.address))
        return known


class Phrases:
    """Phrases as the data have them."""

    def __init__(self, run: Run, places: PlaceTable) -> None:
        self._run = run
        self._places = places

    def form(self, phrase: Phrase, most: int) -> List[Any]:
        """A phrase, in which a script's texts have so many characters at most."""
        found: List[Any] = []
        for part in phrase:
            for one in self._part(part, most):
                if isinstance(one, str) and found and isinstance(found[-1], str):
                    found[-1] += one
                else:
                    found.append(one)
        return found

    def _part(self, part: Part, most: int) -> Iterable[Any]:
        if isinstance(part, OfDeferred):
            return (part.number,)
        if isinstance(part, OfLine):
            return (-1 - part.row,)
        if isinstance(part, OfEvent):
            shown = self._run.script.shown(part.number)
            return (f"event {part.number} ", [visible(clipped(shown, min(most, _MOST_EVENT)))]) if shown else (f"event {part.number}",)
        if isinstance(part, OfPlace):
            return ({"place": self._places.number(part.place)},)
        if isinstance(part, OfTime):
            return (time_of(part.time, self._run.tick),)
        return ([visible(shortened(part.text, most))],) if isinstance(part, OfScript) else (visible(part),)


class Data:
    """The data of a page that has these rows, and names these Deferreds elsewhere."""

    def __init__(
        self, run: Run, events: Events, rows: range, outcomes: Outcomes, axis: Axis, named: Iterable[int], copied: Sequence[str] = ()
    ) -> None:
        self._run = run
        self._copied = copied
        self._rows = rows
        self._named = named
        self._outcomes = outcomes
        self._axis = axis
        self._places = PlaceTable()
        self._phrases = Phrases(run, self._places)
        self._row_data = RowData(run, events, rows)
        self._same = same_lines(run.fold.rows, rows)

    def form(self) -> Dict[str, Any]:
        """The object."""
        run, rows, told = self._run, self._rows, list(self._told())
        return {
            "first": rows.start,
            "total": len(run.fold.rows),
            "tick": seconds_of(1, run.tick),
            "shut": run.is_recorded,
            **self._row_data.columns(),
            **{name: column.form for name, column in self._columns().items()},
            "foreign": foreign_rows(run, rows),
            "folds": [tuple(one) for one in Folding(run.fold.rows, rows, self._same).folds()],
            "brackets": self._brackets(),
            "deferreds": columns_of(run, told, self._phrases.form),
            "stacks": {record.number: self._stack(record) for record in told if run.places.stack_of(record.names)},
            "calls": {record.number: visible(call) for record in told for call in [run.places.call_of(record.names)] if call},
            "tables": self._outcomes.tables,
            "axis": self._axis.form,
            "copied": list(self._copied),
            "files": self._places.files,
            "places": self._places.places,
            "functions": [visible(self._run.places.function_of(place)) for place in self._places.all],
            "sources": [self._source(place) for place in self._places.all],
        }

    def _columns(self) -> Dict[str, Sparse]:
        """The values of some rows."""
        names = ("why", "arrows", "events", "tails", "wholes", "at", "near", "same")
        columns = {"times": self._times(), **{name: Sparse() for name in names}}
        rows, told = self._run.fold.rows, self._row_data
        for place in self._rows:
            row = rows[place]
            if told.has_cause(row):
                columns["why"].add(place, self._phrases.form(row.cause, 80))
            if row.arrows:
                columns["arrows"].add(place, [value for one in row.arrows for value in _arrow(one.kind, one.source, one.target)])
            for name, text in told.texts_of(row):
                columns[name].add(place, text)
            for name, where in told.places_of(row):
                columns[name].add(place, self._places.number(where))
            if place in self._same:
                columns["same"].add(place, self._same[place])
        return columns

    def _times(self) -> Sparse:
        """The rows of the run, those that aren't on the page, too, in which time goes on."""
        column = Sparse()
        time: Optional[int] = None
        for row in self._run.fold.rows:
            if row.time != time:
                column.add(row.place, row.time)
                time = row.time
        return column

    def _stack(self, record: Record) -> List[List[int]]:
        """The lines of the functions in which a Deferred was made, innermost first; then those in which that was handed to Twisted."""
        return [[self._places.number(frame.place) for frame in part] for part in self._run.places.stack_of(record.names)]

    def _source(self, place: Place) -> Optional[Tuple[int, List[str]]]:
        """The lines of the file around a place, with the number of the first one, if they were kept."""
        lines = self._run.places.source_of(place)
        return (lines[0].number, [visible(line.text) for line in lines]) if lines else None

    def _brackets(self) -> List[Tuple[int, int, int]]:
        """The brackets of which a part lies in these rows."""
        return [
            (_BRACKETS.index(one.kind), one.start, one.end if one.end is not None else -1)
            for one in brackets_of(self._run.fold, self._run.left)
            if one.start < self._rows.stop and (one.end is None or one.end >= self._rows.start)
        ]

    def _told(self) -> Iterable[Record]:
        """The Deferreds that the page tells of: those that its rows or its report name, those in a table or on the axis, and those that
        are left."""
        shown = {number for numbers in self._outcomes.tables.values() for number in numbers}.union(self._axis.numbers, self._named)
        for record in self._run.fold.records.values():
            if record.number in shown or (record.last >= self._rows.start and record.row < self._rows.stop) or not record.end.startswith("ok "):
                yield record

    def text(self) -> Html:
        """The object as the page holds it, in which nothing can end the element round it."""
        told = json.dumps(self.form(), ensure_ascii=False, separators=(",", ":"))
        return Html(told.replace("<", "\\u003c"))


def _arrow(kind: ArrowKind, source: Optional[int], target: int) -> Tuple[int, int, int]:
    return _ARROWS.index(kind), source if source is not None else -1, target
