"""Every order of a script's posts as a page, or a sample of them: what becomes of each Deferred, the outcomes, the charts of first
orders, and two of these beside each other.

Each chart is the page of its run, in a frame. So its links, its keys and its script are its own, and it shows without scripts, too.
"""

from __future__ import annotations

import base64
import zlib
from itertools import combinations
from typing import Callable, Dict, Iterator, NamedTuple, Sequence

from ..checkout import as_called
from .batches import Batches, text_of
from .compared import Compared
from .compared_forms import ComparedPage
from .document import FRAME_BASE, asset, hashes, page_file, script_of, written
from .markup import isolated
from .orders import Came, Endings, Orders, Way
from .page import Page
from .records import ended
from .run import Run
from .shapes import CLASSES, SIGNS
from .sizes import several
from .texts import Html, escaped, framed, joined, shortened

#: how many charts the page has at most, and how many lines these have together
MOST_CHARTS, MOST_CHART_LINES = 16, 10_000
#: how many Deferreds or outcomes each table has at most, and how many lines stand beside each other
MOST_DEFERREDS, MOST_OUTCOMES, MOST_COMPARED = 500, 500, 500

_LETTERS = "ABCDEFGHIJKLMNOPQRSTUVWXYZ"
_MOST_VALUE, _MOST_BATCHES, _MOST_FIRSTS = 200, 400, 6
_SCRIPTS = ("orders.js",)


class Shown(NamedTuple):
    """An order whose chart the page has."""

    letter: str
    batches: Batches
    run: Run
    page: Page

    @property
    def height(self) -> int:
        """About how high the chart's page is, in pixels. Its frame is no higher than the screen."""
        return 420 + 20 * len(self.page.rows) + 26 * (len(self.run.report.findings) + len(self.run.fold.records))


class OrdersPage:
    """Writes the page of a script of this name; `run` has it performed in one order, under a label."""

    def __init__(self, title: str, orders: Orders, run: Callable[[Batches, str], Run]) -> None:
        self._title = title
        self._orders = orders
        self._in_sample = f", in a sample of {several(orders.ran, 'order', 'orders')}" if orders.is_sample else ""
        self.shown = list(_shown(orders.charted(MOST_CHARTS), run))
        self._letters: Dict[Batches, str] = {one.batches: one.letter for one in self.shown}

    @property
    def counts(self) -> str:
        """What the page shows, in words."""
        return f"{self._orders.counts}; {several(len(self.shown), 'chart', 'charts')}"

    def html(self) -> Html:
        """The whole page."""
        style, script = asset("style.css") + asset("orders.css"), script_of(_SCRIPTS)
        # (the policy holds for the frames of the page, too)
        allowed = f"style-src {hashes(style, asset('style.css'))}; script-src {hashes(script, script_of())}; base-uri {FRAME_BASE}"
        pieces = (*self._verdict(), *self._endings(), *self._outcomes(), *self._charts(), *self._both())
        body = [Html("<body class=compared><main>"), *pieces, Html(f"</main><script>{script}</script>")]
        return page_file(Html(f"{escaped(self._title)}: {self._which}"), allowed, style, body)

    # above the tables

    @property
    def _which(self) -> str:
        """Which orders the page is of."""
        if not self._orders.is_sample:
            return "every order"
        return f"a sample of {self._orders.ran} of {several(self._orders.total, 'order', 'orders')}"

    def _verdict(self) -> Iterator[Html]:
        orders = self._orders
        yield Html("<nav><a href=#endings>what becomes of each</a> · <a href=#outcomes>outcomes</a>")
        yield Html(" · <a href=#charts>charts</a>" if self.shown else "")
        yield Html(" · <a href=#both>two orders</a></nav>" if len(self.shown) > 1 else "</nav>")
        yield Html(f"<h1><bdi>{escaped(self._title)}</bdi>: {self._which}</h1><p>")
        if len(orders.outcomes) == 1:
            yield Html('<span class="verdict clean">one outcome</span>')
        else:
            yield Html(f'<span class="verdict left">{len(orders.outcomes)} outcomes</span>')
        if orders.stops is not None:
            stopped = several(orders.stops.orders, orders.noun, f"{orders.noun}s")
            yield Html(f'<span class="verdict bad">{stopped} stopped at the limit of the journal</span>')
        if orders.unmet is not None:
            unmet = several(orders.unmet.orders, orders.noun, f"{orders.noun}s")
            yield Html(f'<span class="verdict bad">{unmet} unmet</span>')
        yield Html(f"<span class=facts>{escaped(orders.counts)}</span></p>")
        if orders.total == 1:
            yield Html(f"<p>{self._why_one()} So every run prints the same.</p>")
        elif orders.is_sample:
            yield Html("<p class=facts>Each order was drawn from all of them, so one may have come again. Orders that weren't drawn may end otherwise.</p>")
        elif len(orders.outcomes) == 1:
            yield Html("<p class=facts>No Deferred ends otherwise in another order.</p>")

    def _why_one(self) -> str:
        if any(batch for first in self._orders.firsts for batch in first):
            return "There is one order in which the posts can be taken."
        return "There is one order, since no caller posts anything."

    # what becomes of each Deferred

    def _endings(self) -> Iterator[Html]:
        endings = self._orders.endings
        yield Html("<h2 id=endings>What becomes of each Deferred</h2>")
        if not endings:
            yield Html(f"<p class=facts>No Deferred is made in any {self._orders.noun}.</p>")
        differing = [one for one in endings if self._orders.differs(one)]
        alike = [one for one in endings if not self._orders.differs(one)]
        for title, group in (("Ends in more than one way", differing), (f"Ends the same in every {self._orders.noun}", alike)):
            if group:
                yield from self._table(title, group)

    def _table(self, title: str, group: Sequence[Endings]) -> Iterator[Html]:
        heads = "<th>Deferred</th><th>How it ends</th><th>Orders</th><th>Share</th><th>First order</th>"
        rows = joined(row for one in group[:MOST_DEFERREDS] for row in self._rows(one))
        yield Html(f"<h3>{title}: {several(len(group), 'Deferred', 'Deferreds')}{self._in_sample}</h3>")
        yield Html(f"<div class=wide><table class=ways><tr>{heads}</tr>{rows}</table></div>")
        if len(group) > MOST_DEFERREDS:
            yield Html(f"<p class=facts>and {len(group) - MOST_DEFERREDS} more</p>")

    def _rows(self, one: Endings) -> Iterator[Html]:
        """A row for each way in which a Deferred ends, and for the orders in which it isn't made."""
        unmade = self._orders.unmade(one)
        count = len(one.ways) + bool(unmade)
        look = " class=many" if count > 1 else ""
        name = Html(f'<td class="mono name">{escaped(one.label)}</td>')
        mark = Html(f'<td class="mono name">{escaped(one.label)} <span class="verdict left">{count} ways</span></td>')
        for place, way in enumerate(one.ways):
            yield self._row(look, mark if place == 0 and count > 1 else name, way)
        if unmade:
            yield Html(f"<tr{look}>{name}<td class=facts>isn't made</td>{self._numbers(unmade)}<td></td></tr>")

    def _row(self, look: str, name: Html, way: Way) -> Html:
        """A row that opens the chart of a first order, or has its batches where the page has no chart of it."""
        return self._opening(look, name, _state(way.state), Came(way.orders, way.first))

    def _opening(self, look: str, name: Html, what: Html, came: Came) -> Html:
        letter = self._letters.get(came.first)
        if letter is None:
            batches = isolated(shortened(text_of(came.first), _MOST_BATCHES))
            return Html(f"<tr{look}>{name}<td>{what}</td>{self._numbers(came.orders)}<td><code>{batches}</code></td></tr>")
        return Html(
            f"<tr{look} data-o={letter}>{name}<td><a href=#order-{letter}>{what}</a></td>{self._numbers(came.orders)}<td>order {letter}</td></tr>"
        )

    def _numbers(self, orders: int) -> Html:
        return Html(f"<td class=count>{orders}</td><td class=count>{escaped(share(orders, self._orders.ran))}</td>")

    # the outcomes

    def _outcomes(self) -> Iterator[Html]:
        outcomes = self._orders.outcomes
        named = [(f"outcome {number}", came) for number, came in enumerate(outcomes[:MOST_OUTCOMES], 1)]
        if self._orders.stops is not None:
            named.append(("stopped at the limit of the journal", self._orders.stops))
        if self._orders.unmet is not None:
            named.append(("unmet", self._orders.unmet))
        rows = joined(self._opening("", Html(""), escaped(what), came) for what, came in named)
        yield Html(f"<h2 id=outcomes>{several(len(outcomes), 'outcome', 'outcomes')}{self._in_sample}</h2>")
        heads = "<th>How all end</th><th>Orders</th><th>Share</th><th>First order</th>"
        yield Html(f'<div class=wide><table class="ways outcomes"><tr>{heads}</tr>{rows}</table></div>')
        if len(outcomes) > MOST_OUTCOMES:
            yield Html(f"<p class=facts>and {len(outcomes) - MOST_OUTCOMES} more</p>")

    # the charts

    def _charts(self) -> Iterator[Html]:
        if not self.shown:
            return
        firsts = len(self._orders.firsts)
        yield Html("<div id=charts>")
        if len(self.shown) < firsts:
            yield Html(
                f"<p class=facts>This page has the charts of {len(self.shown)} of these {firsts} first orders: {MOST_CHARTS} at most, of "
                f"{MOST_CHART_LINES:,} lines together. {_command('--batches BATCHES SCRIPT')} shows any other.</p>"
            )
        yield from map(self._chart, self.shown)
        yield Html("</div>")

    def _chart(self, one: Shown) -> Html:
        return Html(
            f"<section class=order id=order-{one.letter} data-o={one.letter}><h2>Order {one.letter}</h2><p class=facts>{self._firsts(one)}</p>"
            f"<details class=order><summary>the order in which posts are taken</summary><code>{escaped(_batches_word(one.batches))}</code></details>"
            f'<iframe title="The chart of order {one.letter}" height={one.height} srcdoc="{framed(written(one.run.title, one.page.pieces(), in_frame=True))}"></iframe></section>'
        )

    def _firsts(self, shown: Shown) -> Html:
        """Of what this is the first order: the outcome, the ways of Deferreds, the stop, and what isn't as expected."""
        first = f"The first {self._orders.noun}"
        told = [f"{first} of outcome {number}." for number, came in enumerate(self._orders.outcomes, 1) if came.first == shown.batches]
        if self._orders.stops is not None and self._orders.stops.first == shown.batches:
            told.append(f"{first} that stopped at the limit of the journal.")
        if self._orders.unmet is not None and self._orders.unmet.first == shown.batches:
            told.append(f"{first} in which a Deferred isn't as the script expects.")
        return Html(" ".join([*told, *self._first_ways(first, shown)]))

    def _first_ways(self, first: str, shown: Shown) -> Iterator[Html]:
        """Of which ways this is the first order: those that differ stand first."""
        firsts = [(one, way) for one in self._orders.endings for way in one.ways if way.first == shown.batches]
        firsts.sort(key=lambda pair: not self._orders.differs(pair[0]))
        told = [Html(f"<b class=mono>{escaped(one.label)}</b> {_state(way.state)}") for one, way in firsts[:_MOST_FIRSTS]]
        more = f", and {len(firsts) - _MOST_FIRSTS} more" if len(firsts) > _MOST_FIRSTS else ""
        if told:
            yield Html(f"{first} in which these end so: {', '.join(told)}{more}.")

    # two orders beside each other

    def _both(self) -> Iterator[Html]:
        if len(self.shown) < 2:
            return
        yield Html("<section id=both><h2>Two orders beside each other</h2><p id=pick></p><div id=pair></div>")
        yield Html(
            "<noscript><p>Without scripts this page can't show two orders beside each other. "
            f"{_command('--compare SCRIPT SCRIPT --batches BATCHES --batches BATCHES')} writes a page that does.</p></noscript></section>"
        )
        for first, second in combinations(self.shown, 2):
            yield _pair(first, second)


def _command(words: str) -> Html:
    """The view with these words, as it is called here."""
    return Html(f"<code>{escaped(as_called(f'./view {words}'))}</code>")


def _shown(firsts: Sequence[Batches], run: Callable[[Batches, str], Run]) -> Iterator[Shown]:
    """The orders that are shown, each with its run: as many of these as the page has room for."""
    lines = 0
    for letter, batches in zip(_LETTERS, firsts):
        one = run(batches, f"order {letter}")
        page = Page(one)
        lines += len(page.rows)
        if lines > MOST_CHART_LINES:
            return
        yield Shown(letter, batches, one, page)


def _pair(first: Shown, second: Shown) -> Html:
    """Two orders beside each other as a block, which the page's script opens: compressed, as base 64."""
    pieces = ComparedPage(Compared(first.run, second.run), MOST_COMPARED).pieces()
    data = zlib.compress("".join(pieces).encode("utf-8"))
    return Html(f'<pre class=block hidden data-o="{first.letter} {second.letter}">{base64.b64encode(data).decode("ascii")}</pre>')


def _state(state: str) -> Html:
    """A state with its sign and its colour."""
    end = ended(state)
    word, _, rest = state.partition(" ")
    shown = Html(f" <bdi class=mono>{escaped(shortened(rest, _MOST_VALUE))}</bdi>") if rest else Html("")
    return Html(f'<span class="state t-{CLASSES[end]}">{SIGNS[end]} {escaped(word)}</span>{shown}')


def _batches_word(batches: Batches) -> str:
    return f"--batches '{text_of(batches)}'"


def share(part: int, whole: int) -> str:
    """A part in percent. Only all is 100%, and only nothing is 0%."""
    if part == whole:
        return "100%"
    percent = 100 * part / whole
    return f"{min(percent, 99.9):.1f}%" if percent >= 0.1 else "<0.1%"
