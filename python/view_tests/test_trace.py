"""The trace, by the rules of Chrome's format: what each event has, that slices nest, and that flows begin and end in slices."""

from __future__ import annotations

import json
import unittest
from typing import Any, Dict, Iterator, List, Tuple

from deferreds.view.facts import read_facts
from deferreds.view.run import Run, run_of_facts, run_of_journal
from deferreds.view.scripts import Script
from deferreds.view.texts import unseen
from deferreds.view.trace import EVENTS, FIRST, Trace

from . import samples
from .stand_in import told
from .test_services import run_of_service

Json = Dict[str, Any]

#: by the phase of an event, the keys that it has to have
_KEYS = {
    "M": {"ph", "pid", "tid", "name", "args"},
    "X": {"ph", "pid", "tid", "name", "cat", "ts", "dur", "args"},
    "b": {"ph", "pid", "tid", "name", "cat", "ts", "id", "args"},
    "e": {"ph", "pid", "tid", "name", "cat", "ts", "id"},
    "s": {"ph", "pid", "tid", "name", "cat", "ts", "id"},
    "f": {"ph", "pid", "tid", "name", "cat", "ts", "id", "bp"},
}
_NAMES = {"process_name": "name", "thread_name": "name", "thread_sort_index": "sort_index"}


def broken(text: str) -> Iterator[str]:
    """What isn't by the rules."""
    document = json.loads(text, parse_constant=lambda name: 1 / 0)
    if document["displayTimeUnit"] not in ("ms", "ns"):
        yield "the unit of time"
    events = document["traceEvents"]
    for event in events:
        yield from _wrong_keys(event)
    named = {event["tid"] for event in events if event["name"] == "thread_name"}
    used = {event["tid"] for event in events}
    if used - named:
        yield f"tracks without a name: {used - named}"
    yield from _wrong_nesting(events)
    yield from _wrong_flows(events)
    yield from _wrong_lengths(events)


def _wrong_keys(event: Json) -> Iterator[str]:
    kind = event["ph"]
    if set(event) != _KEYS.get(kind):
        yield f"keys: {event}"
    for key in ("pid", "tid", "ts", "dur", "id"):
        if key in event and (type(event[key]) is not int or not 0 <= event[key] * 1_000 < 2**63):
            yield f"{key}: {event}"
    if event["pid"] == 0 or not isinstance(event["name"], str) or (kind == "X" and event["dur"] < 1):
        yield f"a name, a process or a length: {event}"
    if kind == "M" and list(event["args"]) != [_NAMES[event["name"]]]:
        yield f"metadata: {event}"
    if kind == "f" and event["bp"] != "e":
        yield f"where a flow ends: {event}"


def _slices(events: List[Json]) -> Dict[Tuple[int, int], List[Json]]:
    found: Dict[Tuple[int, int], List[Json]] = {}
    for event in events:
        if event["ph"] == "X":
            found.setdefault((event["pid"], event["tid"]), []).append(event)
    return found


def _wrong_nesting(events: List[Json]) -> Iterator[str]:
    """Slices of a track lie in each other, or after each other, and come in the order of their beginnings."""
    for slices in _slices(events).values():
        open_: List[int] = []
        before = 0
        for one in slices:
            start, end = one["ts"], one["ts"] + one["dur"]
            if start < before:
                yield f"not in order: {one}"
            before = start
            while open_ and open_[-1] <= start:
                open_.pop()
            if open_ and end > open_[-1]:
                yield f"neither inside nor after: {one}"
            open_.append(end)


def _wrong_flows(events: List[Json]) -> Iterator[str]:
    """Each has a beginning and then an end, both at a moment at which a slice of their track is open."""
    slices = _slices(events)
    begun: Dict[int, Json] = {}
    for event in events:
        if event["ph"] not in "sf":
            continue
        within = slices.get((event["pid"], event["tid"]), [])
        if not any(one["ts"] <= event["ts"] < one["ts"] + one["dur"] for one in within):
            yield f"in no slice: {event}"
        if event["ph"] == "s":
            if event["id"] in begun:
                yield f"begins twice: {event}"
            begun[event["id"]] = event
            continue
        start = begun.pop(event["id"], None)
        if start is None or start["ts"] > event["ts"] or (start["cat"], start["name"]) != (event["cat"], event["name"]):
            yield f"ends what hasn't begun: {event}"
    if begun:
        yield f"begun, and not ended: {list(begun)}"


def _wrong_lengths(events: List[Json]) -> Iterator[str]:
    """An asynchronous slice begins once, and ends once, not before that."""
    begun: Dict[Tuple[str, int], Json] = {}
    for event in events:
        if event["ph"] == "b" and begun.setdefault((event["cat"], event["id"]), event) is not event:
            yield f"begins twice: {event}"
        if event["ph"] == "e":
            start = begun.pop((event["cat"], event["id"]), None)
            if start is None or start["ts"] > event["ts"] or start["name"] != event["name"]:
                yield f"ends what hasn't begun: {event}"
    if begun:
        yield f"begun, and not ended: {list(begun)}"


def exact(begins: List[int], *lines: str) -> Run:
    """A run of which it is known where its events begin."""
    return run_of_facts(read_facts(told("".join(f"{line}\n" for line in lines), begins)), Script(), "t")


class Rules(unittest.TestCase):
    """All that is written is by the rules."""

    def test_of_all_kinds_of_runs(self) -> None:
        runs = [*samples.rows(), *samples.told_by_the_program(), samples.Sample("recorded", samples.recorded())]
        runs += [samples.Sample("hostile", samples.hostile()), samples.Sample("long", samples.long(600))]
        runs.append(samples.Sample("empty", run_of_journal("", "empty")))
        for sample in runs:
            self.assertEqual(list(broken(Trace(sample.run).text())), [], sample.name)

    def test_what_breaks_them_is_seen(self) -> None:
        trace = Trace(samples.of_row("loops.rows", _first_row("loops.rows")))
        whole = json.loads(trace.text())
        for wrong in (
            {"ph": "X", "pid": 1, "tid": EVENTS, "name": "x", "cat": "x", "ts": 0, "dur": 0, "args": {}},
            {"ph": "X", "pid": 1, "tid": 999, "name": "x", "cat": "x", "ts": 0, "dur": 1, "args": {}},
            {"ph": "X", "pid": 1, "tid": EVENTS, "name": "x", "cat": "x", "ts": 0.5, "dur": 1, "args": {}},
            {"ph": "s", "pid": 1, "tid": EVENTS, "name": "x", "cat": "x", "ts": 0, "id": 10**6},
            {"ph": "f", "pid": 1, "tid": EVENTS, "name": "x", "cat": "x", "ts": 0, "id": 10**6, "bp": "e"},
            {"ph": "B", "pid": 1, "tid": EVENTS, "name": "x", "ts": 0},
        ):
            events = [*whole["traceEvents"], wrong]
            self.assertTrue(list(broken(json.dumps({**whole, "traceEvents": events}))), wrong)
        crossing = [
            {"ph": "X", "pid": 1, "tid": EVENTS, "name": "x", "cat": "x", "ts": 10**9 + at, "dur": 10, "args": {}} for at in (0, 5)
        ]
        self.assertTrue(list(broken(json.dumps({**whole, "traceEvents": [*whole["traceEvents"], *crossing]}))))


def _first_row(file: str) -> str:
    from deferreds.twisted.rows import ANY_LINES, read_rows

    from deferreds.checkout import TOP

    rows = read_rows(TOP / "crates" / "test_rows" / "data" / file)
    return next(row.name for row in rows if row.status == 0 and f"{ANY_LINES}\n" not in row.output)


class Content(unittest.TestCase):
    """What is in it."""

    def _slices(self, run: Run, track: int) -> List[Tuple[str, int, int]]:
        return [(one["name"], one["ts"], one["dur"]) for one in Trace(run).events() if one["ph"] == "X" and one["tid"] == track]

    def test_a_track_for_each_deferred(self) -> None:
        run = exact(
            [0, 1, 2, 3, 6, 7],
            "new #0 page", "new #1 -", "add #0", "fire #0 ok 1", "run #0", "wait #0 #1", "advance 5", 'fire #1 fail X ""',
            'hand #1 #0 fail X ""', '#0 page fail X ""', "#1 - ok null",
        )  # fmt: skip
        self.assertEqual(
            self._slices(run, FIRST),
            [("unfired", 0, 3), ("ok 1", 3, 1), ("a callback runs", 4, 1), ("waits for #1", 5, 4997), ('fail X ""', 5002, 1)],
        )
        self.assertEqual(self._slices(run, FIRST + 1), [("unfired", 1, 5000), ('fail X ""', 5001, 1), ("hands over", 5002, 1)])
        self.assertEqual([one[0] for one in self._slices(run, EVENTS)], [f"event {event}" for event in range(6)])
        names = [event["args"]["name"] for event in Trace(run).events() if event["name"] == "thread_name"]
        self.assertEqual(names, ["events and calls", "#0 page", "#1"])
        flows = [(one["name"], one["tid"], one["ts"]) for one in Trace(run).events() if one["ph"] == "s"]
        self.assertEqual(flows, [("fires", EVENTS, 3), ("fires", EVENTS, 5001), ("hands over", FIRST + 1, 5002)])

    def test_a_call_holds_what_it_did(self) -> None:
        run = exact([0, 1, 2], "new #0 d", "later call c 1", "advance 1", "call c", "fire #0 ok 1", 'note "x"', "#0 d ok 1")
        self.assertEqual(self._slices(run, EVENTS)[-2:], [("event 2", 1000, 4), ("call c", 1001, 3)])

    def test_a_tick_is_longer_than_what_happens_in_it(self) -> None:
        lines = [*["note 1"] * 1_500, "advance 1", "note 2"]
        trace = Trace(run_of_journal("".join(f"{line}\n" for line in lines), "t"))
        self.assertEqual((trace.clock.tick, trace.clock.at(1_499), trace.clock.at(1_500)), (10_000, 1_499, 10_000))

    def test_times_that_are_too_long_follow_each_other(self) -> None:
        run = run_of_journal("new #0 d\nadvance 1000000000000000\nfire #0 ok 1\n#0 d ok 1\n", "t")
        trace = Trace(run)
        self.assertFalse(trace.clock.is_even)
        self.assertEqual([trace.clock.at(row) for row in range(3)], [0, 1_000, 1_001])
        self.assertIn("too long", json.loads(trace.text())["otherData"]["times"])
        self.assertEqual(list(broken(trace.text())), [])

    def test_no_unseen_character_is_in_it(self) -> None:
        self.assertEqual(set(unseen().findall(Trace(samples.hostile()).text())), {"\n"})


class OfARecording(unittest.TestCase):
    """The trace of a recorded service."""

    def test_times_are_those_of_the_run(self) -> None:
        run = run_of_service("warehouse")
        trace = Trace(run)
        self.assertEqual(list(broken(trace.text())), [])
        number = run.inferred.sites.all[0].odd[0]
        lost = next(one for one in trace.events() if one["ph"] == "X" and one["name"] == "unfired" and one["tid"] == FIRST + number)
        took = run.durations.of(run.fold.records[number]).unfired
        self.assertLess(abs(lost["dur"] - took), len(run.fold.rows))  # (a tick is a microsecond there)
        self.assertIn('"tick": "as it was in the run"', trace.text())

    def test_a_line_of_the_program_has_a_track_of_how_long_its_deferreds_were_unfired(self) -> None:
        run = run_of_service("warehouse")
        site = run.inferred.sites.all[0]
        number = site.odd[0]
        events = [one for one in Trace(run).events() if one["ph"] in "be"]
        made = [one for one in events if one["name"] == "warehouse.py:67 order, by ask at wire.py:33"]
        self.assertEqual(sorted(one["id"] for one in made if one["ph"] == "b"), sorted(record.number for record in site.records))
        begin, end = (one for one in made if one["id"] == number)
        self.assertEqual(begin["args"], {"deferred": f"#{number} ask_33_32", "ended": "cancelled", "place": "/srv/shop/warehouse.py:67"})
        took = run.durations.of(run.fold.records[number]).unfired
        self.assertLess(abs(end["ts"] - begin["ts"] - took), len(run.fold.rows))  # (a tick is a microsecond there)

    def test_a_millisecond_is_one(self) -> None:
        run = run_of_journal("new #0 a\nadvance 5\nfire #0 ok 1\n#0 a ok 1\n", "t")
        run.tick = "1 ms"
        times = [(one["name"], one["ts"], one["dur"]) for one in Trace(run).events() if one["ph"] == "X" and one["tid"] == FIRST]
        self.assertEqual(times, [("unfired", 0, 5001), ("ok 1", 5001, 1)])

    def test_tracks_of_one_line_stand_beside_each_other_and_slices_have_their_lines(self) -> None:
        run = run_of_service("ledger")
        events, asked = Trace(run).events(), run.inferred.sites.all[0].records[0].number
        names = [one["args"]["name"] for one in events if one["name"] == "thread_name"]
        self.assertEqual([name.split()[0] for name in names[1:17]], ["ledger.py:109"] * 16)
        order = [one["args"]["sort_index"] for one in events if one["name"] == "thread_sort_index"]
        self.assertEqual(order, list(range(1, len(names) + 1)))
        places = {one["args"].get("place") for one in events if one["ph"] == "X" and one["tid"] == FIRST + asked}
        self.assertIn("/srv/shop/wire.py:33", places)


if __name__ == "__main__":
    unittest.main()
