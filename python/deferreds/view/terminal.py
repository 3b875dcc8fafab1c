"""The view for a terminal. Nothing is shown by colour alone."""

from __future__ import annotations

from textwrap import wrap
from typing import Dict, Iterator, List, Optional, Sequence

from .branches import Tree
from .events import Events
from .phrases import OfDeferred, OfEvent, OfLine, OfPlace, OfScript, OfTime, Part, Phrase
from .places import Place
from .records import By, Ended, Record, Row, ended
from .findings import Finding, Severity
from .run import Run
from .sites import Site
from .sizes import several
from .texts import clipped, visible
from .units import said_of, time_of

_DEEPEST = 12
_MOST_LINE, _MOST_TEXT, _MOST_EVENT, _MOST_SITE, _MOST_ODD = 160, 200, 100, 60, 5
#: how many characters a line of the report has at least, if it wraps
_LEAST_ROOM = 20
#: the head of the table of lines of the program
_HEAD = ("made at", "made", "ended", "half unfired up to", "longest", "odd")

_COLORS = {"good": "32", "bad": "31", "wait": "33", "run": "36", "strong": "1", "dim": "2"}
_SIGNS = {Severity.BAD: "!!", Severity.LIKELY: " ?", Severity.LEFT: " *", Severity.NOTE: " -"}
_TONES = {Severity.BAD: "bad", Severity.LIKELY: "strong", Severity.LEFT: "wait", Severity.NOTE: "dim"}

#: what is counted behind the verdict
_OTHERS = ((Severity.LIKELY, "likely cause", "likely causes"), (Severity.NOTE, "to note", "to note"))

_WORD_TONES: Dict[str, str] = {
    **dict.fromkeys(("fire", "hand", "take", "set"), "good"),
    **dict.fromkeys(("refuse", "unhandled"), "bad"),
    **dict.fromkeys(("wait", "await", "hold"), "wait"),
    "run": "run",
    **dict.fromkeys(
        ("advance", "drain", "call", "tick", "tickin", "post", "deliver", "turn", "step", "timeout"), "strong"
    ),
}


class Terminal:
    """Writes a run as lines of text. The report wraps at words, if it is known how wide the terminal is."""

    def __init__(self, run: Run, color: bool, width: int = 0) -> None:
        self._run = run
        self._color = color
        self._width = width
        self._events = Events(run.fold, run.script, run.places, run.row_places)
        self._number = len(str(len(run.fold.rows)))
        #: how many characters the longest time has
        self._time = 1

    def lines(self) -> Iterator[str]:
        """All lines, each without its end."""
        times = {row.time for row in self._run.fold.rows}
        self._time = max((len(time_of(time, self._run.tick)) for time in times), default=1)
        yield from self.report()
        yield ""
        for row in self._run.fold.rows:
            yield from self._row(row)
        yield ""
        yield from self._outcomes()

    def report(self) -> Iterator[str]:
        """The report, and the lines of the program that made Deferreds."""
        yield from self._verdict()
        for finding in self._run.report.findings:
            yield from self._finding(finding)
        sites = self._run.inferred.sites.all
        if sites:
            yield ""
            yield from self._table([_HEAD, *map(self._cells, sites)])

    def _cells(self, site: Site) -> Sequence[str]:
        """What the table says of a line of the program."""
        tick = self._run.tick
        named = [f"#{number}" for number in site.odd[:_MOST_ODD]]
        more = [f"and {len(site.odd) - _MOST_ODD} more"] if len(site.odd) > _MOST_ODD else []
        made = visible(clipped(f"{site.place.text} {site.label}".rstrip(), _MOST_SITE))
        return made, f"{len(site.records)}", site.said, said_of(site.median, tick), said_of(site.longest, tick), " ".join([*named, *more])

    def _table(self, rows: Sequence[Sequence[str]]) -> Iterator[str]:
        """Rows of texts, each column as wide as its longest text."""
        widths = [max(map(len, column)) for column in zip(*rows)]
        for place, row in enumerate(rows):
            text = "  ".join(f"{cell:<{width}}" for cell, width in zip(row, widths)).rstrip()
            yield self._toned("dim" if place == 0 else None, text)

    def tree(self, number: int) -> Iterator[str]:
        """The tree of a Deferred."""
        tree = Tree(self._run, number)
        yield self._toned("strong", self.said(tree.head()))
        for depth, said in tree.lines():
            yield f"{'│ ' * min(depth - 1, _DEEPEST)}{f'({depth}) ' if depth > _DEEPEST + 1 else ''}├ {self.said(said)}"

    def _toned(self, tone: Optional[str], text: str) -> str:
        return f"\x1b[{_COLORS[tone]}m{text}\x1b[0m" if self._color and tone is not None else text

    def said(self, phrase: Phrase) -> str:
        """A phrase as text."""
        return "".join(map(self._part, phrase))

    def _part(self, part: Part) -> str:
        if isinstance(part, OfDeferred):
            return visible(self._deferred(part.number))
        if isinstance(part, OfLine):
            return f"line {part.row + 1}"
        if isinstance(part, OfEvent):
            return visible(
                clipped(
                    f"event {part.number} {self._run.script.shown(part.number)}".rstrip(), _MOST_EVENT
                )
            )
        if isinstance(part, OfPlace):
            return visible(part.place.text)
        if isinstance(part, OfTime):
            return time_of(part.time, self._run.tick)
        return visible(clipped(part.text, _MOST_TEXT)) if isinstance(part, OfScript) else visible(part)

    def _deferred(self, number: int) -> str:
        record = self._run.fold.records.get(number)
        return f"#{number}·{record.name}" if record is not None and record.name else f"#{number}"

    def _verdict(self) -> Iterator[str]:
        report = self._run.report
        counts = ((Severity.BAD, "to look at"), (Severity.LEFT, "left at the end"))
        parts = [
            f"{report.count(severity)} {word}" for severity, word in counts if report.count(severity)
        ]
        verdict = ", ".join(parts) if parts else self._run.nothing
        tone = "bad" if report.count(Severity.BAD) else "wait" if parts else "good" if report.is_clean else None
        others = [f"; {several(report.count(severity), one, more)}" for severity, one, more in _OTHERS if report.count(severity)]
        yield f"{visible(self._run.title)}: {self._toned(tone, verdict)}{''.join(others)}"
        yield self._run.counts
        if self._run.order:
            yield f"posts were taken in this order: --batches '{self._run.order}'"
        if self._run.limits:
            yield self._run.limits
        for problem in self._run.problems:
            yield self._toned("bad", f"warning: {self.said(problem)}")

    def copied(self, finding: Finding) -> str:
        """A row of the report alone, as for a ticket."""
        at = f", line {finding.row + 1}" if finding.row is not None else ""
        details = [f"  {self.said(detail)}" for detail in finding.details]
        return "\n".join([f"{visible(self._run.title)}: {finding.kind.value}{at}", self.said(finding.said), *details, ""])

    def _finding(self, finding: Finding) -> Iterator[str]:
        at = f"  (line {finding.row + 1})" if finding.row is not None else ""
        head = f"{_SIGNS[finding.severity]} {finding.kind.value:<9} "
        for text in self._wrapped(head, f"{self.said(finding.said)}{at}"):
            yield self._toned(_TONES[finding.severity], text)
        for detail in finding.details:
            yield from self._wrapped(" " * len(head), self.said(detail))

    def _wrapped(self, head: str, text: str) -> List[str]:
        """A text behind a head, in lines that the terminal has room for; further lines begin below the text."""
        room = self._width - len(head)
        if room < _LEAST_ROOM:
            return [head + text]
        lines = wrap(text, room, expand_tabs=False, replace_whitespace=False, break_long_words=False, break_on_hyphens=False)
        return [f"{' ' * len(head) if place else head}{line}" for place, line in enumerate(lines or [""])]

    def _row(self, row: Row) -> Iterator[str]:
        head = self._events.head(row)
        if head is not None:
            text = visible(clipped(head, _MOST_EVENT) + self._at(self._events.place(row)))
            yield self._toned("strong", f"{'':{self._number + self._time + 2}}┄ {text}")
        time = time_of(row.time, self._run.tick) if row.entry.word == "advance" or row.place == 0 else "·"
        tone = "bad" if row.entry.fails else _WORD_TONES.get(row.entry.word)
        said = self._toned(tone, self._line(row))
        yield f"{row.place + 1:{self._number}} {time:>{self._time}} {_bars(row)}{said}{self._why(row)}"

    def _line(self, row: Row) -> str:
        """The line, with names beside the numbers of Deferreds."""
        line, head = row.entry.line, row.entry.head
        if row.entry.word not in ("new", "name", ""):
            words = [
                self._deferred(int(word[1:])) if word.startswith("#") else word
                for word in line[:head].split(" ")
            ]
            line = " ".join(words) + line[head:]
        return visible(clipped(line, _MOST_LINE))

    def _why(self, row: Row) -> str:
        said: List[str] = []
        if row.cause and not (row.is_plain and row.actor.by is not By.SIDE):
            said.append(f"   ← {self.said(row.cause)}")
        tail = self._events.tail(row)
        if tail:
            said.append(f"   ┄ {visible(clipped(tail, _MOST_EVENT) + self._at(self._events.place(row)))}")
        said.append(visible(self._at(self._events.place_of(row))))
        return "".join(said)

    def _outcomes(self) -> Iterator[str]:
        """All outcomes, by the lines of the program that made these Deferreds, where that is known."""
        sites = self._run.inferred.sites
        for site in sites.all:
            yield self._toned("strong", visible(f"made at {site.place.text}"))
            yield from map(self._outcome, site.records)
        others = [record for record in self._run.fold.records.values() if record.number not in sites.of]
        if sites.all and others:
            yield self._toned("strong", "made in no line that is known")
        yield from map(self._outcome, others)

    def _outcome(self, record: Record) -> str:
        end = ended(record.end)
        tone = "good" if end is Ended.OK else "bad" if end is Ended.FAIL else "wait"
        text = f"#{record.number} {record.name or '-'} {clipped(record.end, _MOST_TEXT)}"
        return self._toned(tone, visible(text))

    @staticmethod
    def _at(place: Optional[Place]) -> str:
        return f"  ({place.text})" if place is not None else ""


def _bars(row: Row) -> str:
    bars = "│ " * min(row.depth, _DEEPEST) + (f"({row.depth}) " if row.depth > _DEEPEST else "")
    return bars + ("└ " if row.closes else "┌ " if row.opens else "")
