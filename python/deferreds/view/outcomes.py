"""The outcomes of a page: by the line that made each Deferred if that is known, or else those that aren't a value first.

What is said of all stands on the page; the tables are drawn by `outcomes.js`, when they are open.
"""

from __future__ import annotations

from typing import Dict, Iterator, List, Tuple

from .markup import Markup, isolated, placed
from .records import Ended, Record, ended
from .run import Run
from .sites import Site
from .sizes import several
from .texts import Html, clipped, escaped, joined
from .units import said_of

_FEW, _MOST_ODD, _MOST_OK = 16, 200, 2_000
_MOST_SITES, _MOST_OF_SITE, _MOST_NAMED = 200, 200, 5
_NAME = 60


class Outcomes:
    """Which outcomes a page has, and how it shows them."""

    def __init__(self, run: Run, markup: Markup) -> None:
        self._run = run
        self._markup = markup
        every = list(run.fold.records.values())
        odd = [record for record in every if ended(record.end) is not Ended.OK]
        good = [record for record in every if ended(record.end) is Ended.OK]
        is_short = len(every) <= _FEW
        self._first = every if is_short else odd[:_MOST_ODD]
        self._good = [] if is_short else good
        self._untold = 0 if is_short else max(0, len(odd) - _MOST_ODD)
        self._groups = self._by_line() if run.places else []
        self._shown = self._good[:_MOST_OK]

    @property
    def tables(self) -> Dict[str, List[int]]:
        """The numbers of the Deferreds in each table, by the id of what holds it."""
        if self._groups:
            held = {f"site-{place}": records for place, (_, records) in enumerate(self._groups)}
        else:
            held = {name: records for name, records in (("first", self._first), ("good", self._shown)) if records}
        return {name: [record.number for record in records] for name, records in held.items()}

    def _by_line(self) -> List[Tuple[Site, List[Record]]]:
        """The lines that made Deferreds, with those that are shown of each: the odd ones first."""
        groups: List[Tuple[Site, List[Record]]] = []
        room = _MOST_OK
        for site in self._run.inferred.sites.all[:_MOST_SITES]:
            odd = [record for record in site.records if record.number in site.odd]
            others = [record for record in site.records if record.number not in site.odd]
            records = [*odd, *others][: min(_MOST_OF_SITE, room)]
            room -= len(records)
            groups.append((site, records))
        return groups

    def pieces(self) -> Iterator[Html]:
        """What is said, and what holds the tables."""
        if self._groups:
            yield from self._pieces_by_line()
            return
        yield Html("<h2 id=outcomes>Outcomes</h2>")
        if self._first:
            yield Html("<div id=first></div>")
        if self._untold:
            yield Html(f"<p class=facts>and {self._untold} more that didn't end with a value</p>")
        if self._good:
            of = f", {len(self._shown)} of them here" if len(self._shown) < len(self._good) else ""
            yield Html(f"<details id=good><summary>{len(self._good)} that ended with a value{of}</summary></details>")
        if not self._run.fold.records:
            yield Html("<p class=facts>No Deferred was made.</p>")

    # by the line that made them

    def _pieces_by_line(self) -> Iterator[Html]:
        yield Html("<h2 id=outcomes>Deferreds, by the line that made them</h2><div class=sites>")
        heads = "".join(f"<span>{head}</span>" for head in ("Made at", "", "Made", "Ended", "Half unfired up to", "Longest", "Odd"))
        yield Html(f'<div class="site top">{heads}</div>')
        for place, (site, records) in enumerate(self._groups):
            untold = len(site.records) - len(records)
            more = f"<p class=facts>and {untold} more</p>" if untold else ""
            yield Html(f"<details id=site-{place}><summary class=site>{self._site(site)}</summary>{more}</details>")
        yield Html("</div>")
        sites, shown = self._run.inferred.sites, len(self._groups)
        if len(sites.all) > shown:
            yield Html(f"<p class=facts>and {len(sites.all) - shown} more lines</p>")
        elsewhere = len(self._run.fold.records) - len(sites.of)
        if elsewhere:
            made = several(elsewhere, "Deferred was made", "Deferreds were made")
            yield Html(f"<p class=facts>{made} in no line of the program that is known.</p>")

    def _site(self, site: Site) -> Html:
        """What stands in the line of a line of the program."""
        tick = self._run.tick
        odd = joined(Html(f"{self._markup.deferred(number, named=False)} ") for number in site.odd[:_MOST_NAMED])
        more = f"and {len(site.odd) - _MOST_NAMED} more" if len(site.odd) > _MOST_NAMED else ""
        cells = [
            placed(site.place),
            isolated(clipped(site.label, _NAME)),
            Html(f"{len(site.records)}"),
            escaped(site.said),
            escaped(said_of(site.median, tick)),
            escaped(said_of(site.longest, tick)),
            Html(f"{odd}{more}"),
        ]
        return joined(Html(f"<span>{cell}</span>") for cell in cells)
