"""Two runs beside each other, as a page that runs nothing and as a text."""

from __future__ import annotations

from itertools import groupby
from typing import Iterator, List, Optional, Tuple, Union

from .compared import Aligned, Compared, Differing, Side
from .document import asset, hashes, page_file
from .lines import WORDS
from .markup import isolated
from .records import Record, Row, ended
from .findings import Severity
from .shapes import CLASSES, SIGNS
from .sites import Site
from .sizes import several
from .terminal import Terminal
from .texts import Html, clipped, escaped, joined, visible
from .units import said_of

#: how many of the common lines stand above the first that differs, and how many lines and outcomes are shown at most
_BEFORE, _AROUND, MOST_LINES, MOST_OUTCOMES = 8, 3, 2_000, 200
_MOST_LINE, _MOST_VALUE, _MOST_SAID, _MOST_CAUSES, _MOST_ODD, _DEEPEST = 200, 200, 400, 5, 5, 12


class ComparedPage:
    """Writes the page, or what it holds below its title, with so many lines at most."""

    def __init__(self, compared: Compared, most: int = MOST_LINES) -> None:
        self._compared = compared
        self._sides = (compared.first, compared.second)
        self._most = most

    def html(self) -> Html:
        """The whole page."""
        style = asset("style.css")
        first, second = (escaped(side.run.title) for side in self._sides)
        begin = Html(f"<body class=compared><main><h1><bdi>{first}</bdi> and <bdi>{second}</bdi></h1>")
        return page_file(Html(f"{first} | {second}"), f"style-src {hashes(style)}; base-uri 'none'", style, [begin, *self.pieces(), Html("</main>")])

    def pieces(self) -> Iterator[Html]:
        """What differs: the verdict, the outcomes, the lines."""
        yield Html(f'<p><span class="verdict {self._look()}">{escaped(self._compared.verdict)}</span></p>')
        yield from map(self._about, self._sides)
        if self._compared.apart:
            yield Html(f"<p class=facts>{escaped(self._compared.apart)}</p>")
        yield from self._causes()
        yield from self._sites()
        yield from self._outcomes()
        yield from self._lines()

    def _causes(self) -> Iterator[Html]:
        """What the reports of the two have to look at, and as likely causes."""
        found = [(side, causes_of(side)) for side in self._sides]
        if not any(causes for _, causes in found):
            return
        yield Html("<h2>What the reports say</h2><table class=report>")
        for side, causes in found:
            for kind, said in causes or [("", "nothing to look at, and no likely cause")]:
                yield Html(f"<tr><td>{escaped(kind)}</td><td>{isolated(side.run.title)}</td><td>{isolated(clipped(said, _MOST_SAID))}</td></tr>")
        yield Html("</table>")

    def _sites(self) -> Iterator[Html]:
        if not self._compared.sites:
            return
        heads = "".join(f"<th>{isolated(side.run.title)}</th>" for side in self._sides)
        yield Html(f"<h2>Lines of the program whose Deferreds ended otherwise</h2><table class=both><tr><th>Function</th>{heads}</tr>")
        for one in self._compared.sites[:MOST_OUTCOMES]:
            cells = joined(_site(side, site) for side, site in zip(self._sides, (one.first, one.second)))
            yield Html(f'<tr><td class="mono name">{escaped(one.function)}</td>{cells}</tr>')
        yield Html("</table>")

    def _look(self) -> str:
        return "clean" if self._compared.is_same else "left"

    @staticmethod
    def _about(side: Side) -> Html:
        problems = "".join(f"; {escaped(text)}" for text in _report(side))
        return Html(f"<p class=facts>{isolated(side.run.title)}: {escaped(side.run.counts)}{problems}</p>")

    def _outcomes(self) -> Iterator[Html]:
        differing = self._compared.outcomes
        if not differing:
            return
        heads = "".join(f"<th>{isolated(side.run.title)}</th>" for side in self._sides)
        rows = joined(self._outcome(one) for one in differing[:MOST_OUTCOMES])
        yield Html(f"<h2>Outcomes that differ</h2><table class=both><tr><th>Name</th>{heads}</tr>{rows}</table>")
        if len(differing) > MOST_OUTCOMES:
            yield Html(f"<p class=facts>and {len(differing) - MOST_OUTCOMES} more</p>")

    def _outcome(self, one: Differing) -> Html:
        cells = joined(self._end(record) for record in (one.first, one.second))
        return Html(f'<tr><td class="mono name">{escaped(one.name or "-")}</td>{cells}</tr>')

    @staticmethod
    def _end(record: Optional[Record]) -> Html:
        if record is None:
            return Html("<td class=facts>isn't made</td>")
        end = ended(record.end)
        shown = isolated(clipped(record.end, _MOST_VALUE))
        return Html(f'<td class="mono value">#{record.number} <span class="state t-{CLASSES[end]}">{SIGNS[end]}</span> {shown}</td>')

    def _lines(self) -> Iterator[Html]:
        sides = self._sides
        same = sides[0].run.fold.rows[: self._compared.common[0]]
        rest = [side.run.fold.rows[common:] for side, common in zip(sides, self._compared.common)]
        yield Html("<h2>From the first line that differs on</h2>" if any(rest) else "<h2>The last lines</h2>")
        if len(same) > _BEFORE:
            yield Html(f"<p class=facts>{len(same) - _BEFORE} lines before these are the same</p>")
        heads = "".join(f"<th>{isolated(side.run.title)}</th>" for side in sides)
        yield Html(f"<table class=both><tr>{heads}</tr>")
        for row in same[-_BEFORE:]:
            yield Html(f"<tr class=facts><td colspan=2>{_cell(sides[0], row)}</td></tr>")
        yield from map(self._pair, shortened_runs(self._compared.aligned(self._most)))
        yield Html("</table>")
        for side, one in zip(sides, rest):
            if len(one) > self._most:
                yield Html(f"<p class=facts>{isolated(side.run.title)} has {len(one) - self._most} more lines</p>")

    def _pair(self, pair: Union[Aligned, int]) -> Html:
        """Rows that stand beside each other, or how many are left out since they are the same."""
        if isinstance(pair, int):
            return Html(f"<tr class=facts><td colspan=2>{several(pair, 'line is', 'lines are')} the same</td></tr>")
        same = " class=facts" if pair.is_same else ""
        return Html(f"<tr{same}>{self._line(self._sides[0], pair.first)}{self._line(self._sides[1], pair.second)}</tr>")

    @staticmethod
    def _line(side: Side, row: Optional[Row]) -> Html:
        if row is None:
            return Html("<td></td>")
        fails = " f" if row.entry.fails else ""
        return Html(f'<td class="line{fails}">{_cell(side, row)}</td>')


def shortened_runs(aligned: List[Aligned]) -> List[Union[Aligned, int]]:
    """The rows, with how many are left out in the midst of a long run of rows that are the same."""
    found: List[Union[Aligned, int]] = []
    for is_same, group in groupby(aligned, key=lambda one: one.is_same):
        rows = list(group)
        left_out = len(rows) - 2 * _AROUND
        if is_same and left_out > 1:
            found += [*rows[:_AROUND], left_out, *rows[-_AROUND:]]
        else:
            found += rows
    return found


def _site(side: Side, site: Optional[Site]) -> Html:
    return Html(f"<td>{isolated(site_said(side, site))}</td>" if site is not None else "<td class=facts>makes none</td>")


def site_said(side: Side, site: Optional[Site]) -> str:
    """What is said of a line of a program."""
    if site is None:
        return "makes none"
    longest = said_of(site.longest, side.run.tick)
    odd = f", odd: {' '.join(f'#{number}' for number in site.odd[:_MOST_ODD])}" if site.odd else ""
    return f"{site.place.text}: {site.said}, longest {longest}{odd}"


def causes_of(side: Side) -> List[Tuple[str, str]]:
    """The rows of a recording's report that are to be looked at, or likely causes, or notes: the kind of each, and what it says."""
    if not side.run.is_recorded:
        return []
    terminal = Terminal(side.run, False)
    findings = [one for one in side.run.report.findings if one.severity is not Severity.LEFT]
    return [(one.kind.value, "; ".join(map(terminal.said, [one.said, *one.details[:2]]))) for one in findings[:_MOST_CAUSES]]


def _cell(side: Side, row: Row) -> Html:
    """A line with its number, indented as deep as it lies, and what it lacks."""
    line, entry = clipped(row.entry.line, _MOST_LINE), row.entry
    shown = isolated(line)
    if entry.word in WORDS:
        shown = Html(f"<b class=k-{entry.word}>{entry.word}</b>{isolated(line[len(entry.word) :])}")
    deep = f"<i class=d{min(row.depth, _DEEPEST)}></i>" if row.depth else ""
    lacks = side.lacks(row)
    behind = f" <span class=why>{isolated(clipped(lacks, _MOST_VALUE))}</span>" if lacks else ""
    return Html(f"<span class=n>{row.place + 1}</span>{deep}<span class=mono>{shown}</span>{behind}")


def _report(side: Side) -> List[str]:
    """How many rows a run's report has."""
    report = side.run.report
    counts = (
        (Severity.BAD, "to look at", "to look at"),
        (Severity.LIKELY, "likely cause", "likely causes"),
        (Severity.LEFT, "left at the end", "left at the end"),
        (Severity.NOTE, "to note", "to note"),
    )
    return [several(report.count(severity), one, more) for severity, one, more in counts if report.count(severity)]


def text_lines(compared: Compared) -> Iterator[str]:
    """The comparison for a terminal, without colours: `-` is of the first run, `+` of the second."""
    sides = (("-", compared.first), ("+", compared.second))
    for sign, side in sides:
        yield visible("; ".join([f"{sign} {side.run.title}: {side.run.counts}", *_report(side)]))
    yield compared.verdict
    if compared.apart:
        yield compared.apart
    for sign, side in sides:
        for kind, said in causes_of(side):
            yield visible(clipped(f"{sign} {kind}: {said}", _MOST_SAID))
    for pair in compared.sites:
        for (sign, side), site in zip(sides, (pair.first, pair.second)):
            yield visible(f"{sign} {pair.function}: {site_said(side, site)}")
    for one in compared.outcomes:
        for sign, record in (("-", one.first), ("+", one.second)):
            end = f"#{record.number} {clipped(record.end, _MOST_VALUE)}" if record is not None else "isn't made"
            yield visible(f"{sign} {one.name or '-'}: {end}")
    yield ""
    same = compared.first.run.fold.rows[: compared.common[0]]
    for row in same[-_BEFORE:]:
        yield _text(" ", compared.first, row)
    longest = max(len(side.run.fold.rows) for _, side in sides)
    for is_same, group in groupby(compared.aligned(longest), key=lambda one: one.is_same):
        rows = list(group)
        if is_same:
            yield from _same(sides[0][1], rows)
            continue
        for (sign, side), of_side in zip(sides, ([pair.first for pair in rows], [pair.second for pair in rows])):
            yield from (_text(sign, side, row) for row in of_side if row is not None)


def _same(side: Side, rows: List[Aligned]) -> Iterator[str]:
    """Rows that are the same in both runs, as the first has them."""
    for one in shortened_runs(rows):
        if isinstance(one, int):
            yield f"  {several(one, 'line is', 'lines are')} the same"
        elif one.first is not None:
            yield _text(" ", side, one.first)


def _text(sign: str, side: Side, row: Row) -> str:
    lacks = side.lacks(row)
    behind = f"  {visible(clipped(lacks, _MOST_VALUE))}" if lacks else ""
    return f"{sign} {row.place + 1:>5} {'│ ' * min(row.depth, _DEEPEST)}{visible(clipped(row.entry.line, _MOST_LINE))}{behind}"
