"""The run as a trace of Chrome's, which Perfetto opens: a track for each Deferred, slices for what it does, and flows
for who fires whom; and a track for each line of the program that made Deferreds (python/NOTES.md, "A trace").

Many lines stand at one time of the virtual clock, and a slice of no length isn't seen. So each line takes a microsecond,
and a tick is longer than all lines of one time: a millisecond, or the next power of ten that is. The times of a recorded run are
those of the run; only lines of one time stand a microsecond after each other, and what follows no earlier than these.
"""

from __future__ import annotations

import json
from typing import Any, Dict, Iterator, List, Optional

from .nesting import LAST_POSTS
from .records import Arrow, ArrowKind, Look, Record, Row, State
from .run import Run
from .sites import Site, end_of
from .texts import clipped, visible
from .units import seconds_of

Json = Dict[str, Any]

#: the process of all tracks, the track of events and calls, and that of the first Deferred
PROCESS, EVENTS, FIRST = 1, 1, 2

_LEAST_TICK = 1_000
#: up to which time the times of a trace stand in proportion: as nanoseconds, they have to fit into 63 bits
_LATEST = 4 * 10**15
_MOST_NAME, _MOST_TEXT = 100, 1_000

_STATES = {State.UNFIRED: "unfired", State.RUN: "a callback runs", State.WAIT: "waits"}
_FLOWS = {
    ArrowKind.FIRE: "fires",
    ArrowKind.HAND: "hands over",
    ArrowKind.CANCEL: "cancels",
    ArrowKind.REFUSE: "is refused",
    ArrowKind.SWALLOW: "is swallowed",
}


class Clock:
    """The microsecond of each line."""

    def __init__(self, rows: List[Row], tick: str = "") -> None:
        #: how many microseconds a tick is, where times are those of a recorded run
        self.real = seconds_of(1, tick) * 1_000_000
        times: Dict[int, int] = {}
        for row in rows:
            times[row.time] = times.get(row.time, 0) + 1
        self.tick = _LEAST_TICK
        while self.tick <= max(times.values(), default=0):
            self.tick *= 10
        #: whether times stand in proportion; where they are too long, each comes a tick after the one before
        self.is_even = (max(times, default=0) + 1) * self.tick <= _LATEST
        starts = {time: (time if self.is_even else place) * self.tick for place, time in enumerate(sorted(times))}
        self._at: List[int] = []
        is_real = self.real > 0 and max(times, default=0) * self.real <= _LATEST
        if is_real:
            self.is_even = True
            starts = {time: round(time * self.real) for time in times}
        for row in rows:
            earliest = self._at[-1] + 1 if is_real and self._at else 0
            starts[row.time] = max(starts[row.time], earliest)
            self._at.append(starts[row.time])
            starts[row.time] += 1
        #: how long a tick is in it, in words
        self.said = "as it was in the run" if is_real else f"{self.tick} us"

    def at(self, row: int) -> int:
        """When a line stands; after the last one, when the run is over."""
        if row < len(self._at):
            return self._at[row]
        return self._at[-1] + 1 if self._at else 0


class Trace:
    """The events of a trace."""

    def __init__(self, run: Run) -> None:
        self._run = run
        self._rows = run.fold.rows
        self.clock = Clock(self._rows, run.tick)
        self._flows = 0

    def text(self) -> str:
        """The whole file: an object with an event a line."""
        about = {"title": visible(self._run.title), "run": self._run.counts, "tick": self.clock.said}
        if not self.clock.is_even:
            about["times"] = "too long to stand in proportion: each comes a tick after the one before"
        events = ",\n".join(json.dumps(event, ensure_ascii=False, separators=(",", ":")) for event in self.events())
        return f'{{"displayTimeUnit":"ms","otherData":{json.dumps(about, ensure_ascii=False)},"traceEvents":[\n{events}\n]}}\n'

    def events(self) -> List[Json]:
        """All events: names first, then the others by time, the longer before what lies in it."""
        found = [*self._sections(), *(event for record in self._run.fold.records.values() for event in self._states(record))]
        for row in self._rows:
            for arrow in row.arrows:
                found += self._arrow(row, arrow)
        found += [event for site in self._run.inferred.sites.all for event in self._unfired(site)]
        order = {"b": 0, "X": 1, "s": 2, "f": 3, "e": 4}
        found.sort(key=lambda event: (event["ts"], order[event["ph"]], -event.get("dur", 0)))
        return [*self._names(), *found]

    def _names(self) -> Iterator[Json]:
        yield self._named("process_name", EVENTS, {"name": visible(clipped(self._run.title, _MOST_NAME))})
        tracks = [(EVENTS, "events and calls"), *((FIRST + one.number, self._track(one)) for one in self._in_order())]
        for place, (track, name) in enumerate(tracks, 1):
            yield self._named("thread_name", track, {"name": visible(name)})
            yield self._named("thread_sort_index", track, {"sort_index": place})

    def _in_order(self) -> List[Record]:
        """The Deferreds in the order of their tracks: those of one line of the program beside each other, where that is known."""
        sites = self._run.inferred.sites
        of_lines = [record for site in sites.all for record in site.records]
        return [*of_lines, *(record for record in self._run.fold.records.values() if record.number not in sites.of)]

    def _track(self, record: Record) -> str:
        site = self._run.inferred.sites.of.get(record.number)
        where = f"{site.place.text} " if site is not None else ""
        return f"{where}#{record.number} {record.name}".rstrip()

    @staticmethod
    def _named(what: str, track: int, arguments: Json) -> Json:
        return {"ph": "M", "pid": PROCESS, "tid": track, "name": what, "args": arguments}

    def _slice(self, track: int, kind: str, name: str, row: int, end: int, **more: str) -> Json:
        """A slice from a line up to a microsecond, with the line in full."""
        start = self.clock.at(row)
        arguments = {"line": row + 1, "text": visible(clipped(self._rows[row].entry.line, _MOST_TEXT)), **more}
        place = self._run.row_places.of(self._rows[row])
        if place is not None:
            arguments["place"] = visible(place.whole)
        return {
            "ph": "X", "pid": PROCESS, "tid": track, "cat": kind, "name": visible(clipped(name, _MOST_NAME)),
            "ts": start, "dur": end - start, "args": arguments,
        }  # fmt: skip

    # events, calls and turns

    def _sections(self) -> Iterator[Json]:
        """What each event did, and in it what came due, with all lines that lie in it; a journal doesn't tell how long it took."""
        ends = self._ends()
        first: Dict[int, int] = {}
        last: Dict[int, int] = {}
        for row in self._rows:
            if row.event is not None:
                first.setdefault(row.event, row.place)
                last[row.event] = row.place
        for event, place in first.items():
            said = "the last posts" if event == LAST_POSTS else f"event {event} {self._run.script.shown(event)}".rstrip()
            yield self._slice(EVENTS, "event", said, place, self.clock.at(last[event]) + 1, event=visible(clipped(said, _MOST_TEXT)))
        for row in self._rows:
            if row.entry.word in ("call", "turn", "tick", "tickin", "step", "timeout", "deliver", "post"):
                # (a first turn lies where its loop does, also inside a side, and what follows isn't in it)
                yield self._slice(EVENTS, "call", row.entry.line, row.place, self.clock.at(ends[row.place]) + 1)

    def _ends(self) -> List[int]:
        """The last line that lies in each line, or itself."""
        ends = list(range(len(self._rows)))
        for row in reversed(self._rows):
            if row.inside is not None:
                ends[row.inside] = max(ends[row.inside], ends[row.place])
        return ends

    # Deferreds

    def _states(self, record: Record) -> Iterator[Json]:
        """A slice for each time in which a Deferred is unfired, waits, is paused, or a side of it runs."""
        spans = record.spans
        for place, (start, look) in enumerate(spans):
            end = spans[place + 1][0] if place + 1 < len(spans) else len(self._rows)
            said = self._said(start, look)
            if said and end > start:
                result = self._rows[end].entry.line if look.state is State.RUN and end < len(self._rows) else ""
                more = {"ends with": visible(clipped(result, _MOST_TEXT))} if result else {}
                yield self._slice(FIRST + record.number, look.state.value, said, start, self.clock.at(end), **more)

    def _unfired(self, site: Site) -> Iterator[Json]:
        """How long each Deferred of a line of the program was unfired. These overlap, so they are asynchronous slices of one name, which are
        drawn as one track."""
        name = visible(clipped(f"{site.place.text} {site.label}".rstrip(), _MOST_NAME))
        for record in site.records:
            end = record.fired if record.fired is not None else len(self._rows)
            common = {"pid": PROCESS, "tid": EVENTS, "cat": "made", "id": record.number, "name": name}
            about = {"deferred": visible(self._label(record.number)), "ended": end_of(self._run.fold, record), "place": visible(site.place.whole)}
            yield {"ph": "b", "ts": self.clock.at(record.row), **common, "args": about}
            yield {"ph": "e", "ts": self.clock.at(end), **common}

    def _said(self, start: int, look: Look) -> str:
        """What a Deferred does that looks so; an empty text where it is fired, and that is all."""
        said = _STATES.get(look.state, "")
        if look.state is State.WAIT and self._rows[start].entry.word == "wait":
            said = f"waits for {self._label(self._rows[start].entry.other)}"
        return ", ".join(filter(None, ["paused" if look.paused else "", said]))

    def _label(self, number: int) -> str:
        record = self._run.fold.records.get(number)
        return f"#{number} {record.name}".rstrip() if record is not None else f"#{number}"

    # who fires whom

    def _arrow(self, row: Row, arrow: Arrow) -> Iterator[Json]:
        """A slice at whom it reaches, and a flow to it from who acts, where a slice tells of that."""
        flow = _FLOWS.get(arrow.kind)
        if flow is None:
            return
        target, outcome = FIRST + arrow.target, row.entry.outcome
        name = outcome.text if outcome is not None else row.entry.word
        now = self.clock.at(row.place)
        yield self._slice(target, arrow.kind.value, name, row.place, now + 1)
        source = self._source(row, arrow)
        if source is None or source == target:
            return
        if arrow.kind is ArrowKind.HAND:
            yield self._slice(source, arrow.kind.value, flow, row.place, now + 1)
        self._flows += 1
        common = {"pid": PROCESS, "cat": arrow.kind.value, "name": flow, "id": self._flows, "ts": now}
        yield {"ph": "s", "tid": source, **common}
        yield {"ph": "f", "bp": "e", "tid": target, **common}

    def _source(self, row: Row, arrow: Arrow) -> Optional[int]:
        """The track of who acts; None where no slice tells of that."""
        if arrow.source is not None:
            return FIRST + arrow.source
        return EVENTS if row.event is not None else None
