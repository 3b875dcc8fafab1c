"""The page of a run: verdict, report and lines of the program, and the data from which its scripts draw the rest."""

from __future__ import annotations

from typing import Dict, Iterator, List, Optional

from .axis import Axis
from .data import Data
from .document import written
from .events import Events
from .findings import Finding, Kind, Severity
from .markup import Markup
from .outcomes import Outcomes
from .phrases import OfDeferred
from .run import Run
from .sizes import part_of, several
from .terminal import Terminal
from .texts import Html, escaped, joined, shortened

#: up to which width of the screen lanes are folded away; `style.css` has the same number
NARROW = 600

#: how many lines show where no script runs, and how many characters of each
MOST_PLAIN, _MOST_LINE = 300, 200

_FEW_FINDINGS, _MOST_FINDINGS = 8, 200
_MOST_TEXT, _MOST_DETAILS = 300, 8

_TITLES = {
    Severity.BAD: "To look at",
    Severity.LIKELY: "Likely causes",
    Severity.LEFT: "What is left, and why",
    Severity.NOTE: "Notes",
}
_COUNTED = (
    (Severity.BAD, "to look at", "to look at"),
    (Severity.LIKELY, "likely cause", "likely causes"),
    (Severity.LEFT, "left at the end", "left at the end"),
    (Severity.NOTE, "to note", "to note"),
)


class Page:
    """The page of a run, with the lines that are asked for, by numbers from 1, or else all, or the last ones of a long run."""

    def __init__(self, run: Run, first: Optional[int] = None, last: Optional[int] = None) -> None:
        self._run = run
        #: the rows that the page has
        self.rows = part_of(len(run.fold.rows), first, last)
        self._markup = Markup(run.fold, run.script, self.rows, run.tick)
        self._ends = Outcomes(run, self._markup)
        self._axis = Axis(run)
        self._terminal = Terminal(run, False)
        #: the rows of the report as texts
        self._copied: List[str] = []

    def pieces(self) -> Iterator[Html]:
        """What the page holds."""
        yield Html("<a id=skip href=#chart>to the chart</a><main>")
        yield from self._verdict(escaped(self._run.title))
        yield from self._report()
        yield from self._ends.pieces()
        yield Html("<section id=tree hidden></section>")
        yield from self._axis.pieces()
        yield from self._above_chart()
        yield Html("</main><div id=chart hidden></div><aside id=whole aria-label=row hidden></aside>")
        yield Html("<div id=search role=search hidden></div><div id=focus role=status hidden></div>")
        yield from self._plain()
        yield Html(f"<script type=application/json id=data>{self.data.text()}</script>")

    @property
    def data(self) -> Data:
        """What the scripts draw."""
        events = Events(self._run.fold, self._run.script, self._run.places, self._run.row_places)
        return Data(self._run, events, self.rows, self._ends, self._axis, self._markup.named, self._copied)

    def _plain(self) -> Iterator[Html]:
        """What shows where no script runs."""
        rows = self._run.fold.rows[self.rows.start : self.rows.stop]
        shown = "\n".join(escaped(shortened(row.entry.line, _MOST_LINE)) for row in rows[:MOST_PLAIN])
        which = f"the first {MOST_PLAIN} of {len(rows)} lines" if len(rows) > MOST_PLAIN else "the lines of the run"
        yield Html(f"<noscript><p>Without scripts this page shows the report and {which}. <code>--text</code> prints them all.</p>")
        yield Html(f"<pre>{shown}</pre></noscript>")

    # above the chart

    def _verdict(self, title: Html) -> Iterator[Html]:
        report = self._run.report
        yield Html("<nav><a href=#outcomes>outcomes</a> · <a href=#what>what happened</a> · <a href=#find>find</a></nav>")
        yield Html(f"<h1>{title}</h1><p>")
        for severity, one, more in _COUNTED:
            if report.count(severity):
                yield Html(f'<span class="verdict {severity.value}">{several(report.count(severity), one, more)}</span>')
        if report.leaves_nothing:
            look = "clean" if report.is_clean and not self._run.problems else "note"
            yield Html(f'<span class="verdict {look}">{self._run.nothing}</span>')
        yield Html(f"<span class=facts>{escaped(self._run.counts)}</span></p>")
        if self._run.order:
            order = escaped(f"--batches '{self._run.order}'")
            yield Html(f"<details class=order><summary>the order in which posts were taken</summary><code>{order}</code></details>")
        if self._run.limits:
            yield Html(f"<p class=facts>{escaped(self._run.limits)}</p>")
        for problem in self._run.problems:
            yield Html(f'<p><span class="verdict bad">{self._markup.said(problem)}</span></p>')

    def _report(self) -> Iterator[Html]:
        for severity, title in _TITLES.items():
            findings = [one for one in self._run.report.findings if one.severity is severity]
            if findings:
                yield Html(f"<h2>{title}</h2>")
                yield from self._findings(findings)

    def _findings(self, findings: List[Finding]) -> Iterator[Html]:
        few: List[Html] = []
        more: List[Html] = []
        shown: Dict[Kind, int] = {}
        for finding in findings:
            shown[finding.kind] = shown.get(finding.kind, 0) + 1
            if shown[finding.kind] <= _MOST_FINDINGS:
                (few if shown[finding.kind] <= _FEW_FINDINGS else more).append(self._finding(finding))
        yield Html(f"<table class=report>{joined(few)}</table>")
        if more:
            yield Html(
                f"<details><summary>{len(more)} more of these</summary><table class=report>{joined(more)}</table></details>"
            )
        untold = len(findings) - len(few) - len(more)
        if untold:
            yield Html(f"<p class=facts>and {untold} more</p>")

    def _finding(self, finding: Finding) -> Html:
        where = self._markup.line(finding.row) if finding.row is not None else Html("")
        details = [
            Html(f"<div class=why>{self._markup.said(one, _MOST_TEXT)}</div>")
            for one in finding.details[:_MOST_DETAILS]
        ]
        if details:
            details[0] = Html(
                f" <span class=why>· {self._markup.said(finding.details[0], _MOST_TEXT)}</span>"
            )
        self._copied.append(self._terminal.copied(finding))
        copy = Html(f" <span class=why data-copy={len(self._copied) - 1}></span>")
        return Html(
            f"<tr class={finding.severity.value}><td>{finding.kind.value}</td><td>{where}</td>"
            f"<td>{self._markup.said(finding.said, _MOST_TEXT)}{self._tree_of(finding)}{copy}{joined(details)}</td></tr>"
        )

    def _tree_of(self, finding: Finding) -> Html:
        """A link to the tree of the first Deferred that the row names."""
        number = next((part.number for part in finding.said if isinstance(part, OfDeferred)), None)
        return Html(f' <span class=why>· <a href="#d={number}">its tree</a></span>' if number in self._run.fold.records else "")

    # the chart

    def _above_chart(self) -> Iterator[Html]:
        yield Html("<div id=above hidden><h2 id=what>What happened, in order</h2><div class=legend></div>")
        yield Html('<p class="facts small">A run holds the lines below it, up to the <b>set</b>, <b>take</b> or <b>wait</b> that ')
        yield Html("ends it. Time stands on the left, with a bracket from each scheduling to its coming. Choose a number, as #0, to ")
        yield Html("follow that Deferred; press / to find a text. Arrow keys go from line to line.</p>")
        yield Html("<details id=sieve><summary>Filter by kind of line and by outcome</summary></details>")
        yield Html('<p id=folds class="facts small" hidden></p>')
        rows = len(self._run.fold.rows)
        if len(self.rows) < rows:
            yield Html(
                f'<p><span class="verdict note">lines {self.rows.start + 1} to {self.rows.stop} of {rows}</span>'
                "<span class=facts>Report and outcomes are of the whole run.</span></p>"
            )
        yield Html("</div>")


def written_page(run: Run, first: Optional[int] = None, last: Optional[int] = None) -> Html:
    """The page of a run as a file."""
    return written(run.title, Page(run, first, last).pieces())
