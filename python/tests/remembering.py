"""Compares what a recorder has in memory with what its notes say, of one and the same run.

`python3 -m tests.remembering FOLDER PROGRAM WORDS..` records the program, which may do something else in each run. What is dropped from
memory is remembered here, and put back at the end. The last line says `the same`, or what differs.
"""

from __future__ import annotations

import sys
from pathlib import Path
from time import time
from typing import Any, Dict, List, Tuple

from deferreds.twisted.recording.hiding import SECRETS
from deferreds.twisted.recording.noted import header, noted
from deferreds.twisted.recording.notes import NotesFile
from deferreds.twisted.recording.noting import NotedRecorder, Noting
from deferreds.twisted.recording.programs import record_program
from deferreds.twisted.recording.saying import Said

_LISTS = ("parts", "events", "begins", "records", "quirks")
_OF_INNER = ("calls", "quirks_as_such", "quirks", "sides", "errors")


class Remembering(Noting):
    """Drops what is in the notes, and remembers it."""

    def __init__(self, recorder: NotedRecorder) -> None:
        super().__init__(recorder)
        self._kept: Dict[str, List[Any]] = {name: [] for name in (*_LISTS, "failed", "quirks_of", "spots", "calls", "made")}
        self._kept_runs: Dict[int, Tuple[Any, List[Any]]] = {}
        self._kept_done: Dict[int, List[Any]] = {}
        self._kept_bodies: Dict[int, Tuple[Any, List[Any]]] = {}
        self._kept_inners: Dict[int, Tuple[Any, Dict[str, Any]]] = {}
        self._kept_ticks: Dict[int, Tuple[Any, List[Any], List[Any]]] = {}
        self._kept_times: Any = None

    def _drop(self) -> None:
        self.remember()
        super()._drop()

    def remember(self) -> None:
        """Remembers what is new."""
        recorder: Any = self._recorder
        for name in _LISTS:
            window, kept = getattr(recorder, name), self._kept[name]
            kept += window.here[len(kept) - window.before :]
        self._kept["failed"] += recorder.failed
        self._kept["quirks_of"] += recorder.quirks_of
        self._kept["spots"] += recorder.spots.noted
        self._kept["calls"] += recorder.spots.calls
        self._kept["made"] += recorder.spots.places_of_things
        for runs, run in self.begun:
            self._kept_runs.setdefault(id(runs), (runs, []))[1].append(run)
        for run in {id(run): run for run in (*(run for _, run in self.begun), *self.going.values())}.values():
            done = self._kept_done.setdefault(id(run), [run, [], None, run.given])
            done[1] += run.actions[run.written :]
            done[2] = run.end
        for steps in self.steps_going.values():
            self._kept_bodies.setdefault(id(steps), (steps, []))[1].extend(steps.bodies)
        for inner in self.inners.values():
            self._remember_inner(inner)
        self._remember_times()

    def _remember_inner(self, inner: Any) -> None:
        kept = self._kept_inners.setdefault(id(inner), (inner, {name: [] for name in (*_OF_INNER, "turns", "used_in")}))[1]
        for name in _OF_INNER:
            kept[name] += getattr(inner, name)
        kept["turns"] += [turn for turn in inner.turns if turn not in kept["turns"]]
        kept["used_in"] += inner.used_in

    def _remember_times(self) -> None:
        recorder: Any = self._recorder
        if recorder.cooperator is not None:
            for cooperating in recorder.cooperator.all():
                _, delays, ticks = self._kept_ticks.setdefault(id(cooperating), (cooperating, [], []))
                delays += cooperating.delays
                ticks += cooperating.ticks
        pace = recorder.pace
        if pace is None:
            return
        if self._kept_times is None:
            self._kept_times = [], [], [], {}, {}
        waiting, moved, steps, advances, before = self._kept_times
        fresh = getattr(pace.waiting, "here", pace.waiting)
        waiting += fresh
        moved += pace.moved
        steps += [step for step in pace.steps if step not in steps[-2:] and step not in steps[:1]]
        advances.update(pace.advances)
        before.update((entry, entry.before) for entry, _, _ in fresh)

    def restore(self) -> None:
        """Has the recorder have all that was recorded."""
        recorder: Any = self._recorder
        for name in (*_LISTS, "failed", "quirks_of"):
            setattr(recorder, name, self._kept[name])
        recorder.spots.noted[:] = self._kept["spots"]
        recorder.spots.calls[:] = self._kept["calls"]
        recorder.spots.places_of_things[:] = self._kept["made"]
        for runs, here in self._kept_runs.values():
            list.clear(runs)
            runs.before = 0
            list.extend(runs, here)
        for run, actions, end, given in self._kept_done.values():
            run.noted, run.end, run.given = actions or None, end, given
        for steps, bodies in self._kept_bodies.values():
            steps.bodies = bodies
        for inner, kept in self._kept_inners.values():
            for name in (*_OF_INNER, "turns"):
                setattr(inner, name, kept[name])
            inner.used_in = set(kept["used_in"])
        for cooperating, delays, ticks in self._kept_ticks.values():
            cooperating.delays, cooperating.ticks = delays, ticks
        if self._kept_times is not None:
            pace = recorder.pace
            pace.waiting, pace.moved, pace.steps, pace.advances, before = self._kept_times
            for entry, earlier in before.items():
                entry.before = earlier


def differences(one: Said, other: Said) -> List[str]:
    """In what two differ."""
    names = ("text", "output", "whole_output", "places", "problems", "plainly", "quirks", "begins", "further_clocks", "elsewhere", "tick")
    return [name for name in names if str(getattr(one, name)) != str(getattr(other, name))]


def main(folder: str, program: str, words: List[str]) -> None:
    """Records the program, and compares."""
    file = NotesFile(Path(folder, "run.notes"), print)
    file.add(header(SECRETS, "", "", time()))
    recorder = NotedRecorder()
    noting = recorder.noting = Remembering(recorder)
    noting.begin(file, print)
    record_program(recorder, program, words, False, False)
    noting.write_rest()
    noting.finish(None, "status 0")
    noting.remember()
    noting.restore()
    again = noted(file.read_all()).recorder
    found = differences(Said(recorder), Said(again))
    print(f"{', '.join(found)} differ" if found else f"the same, {len(recorder.parts)} parts")


if __name__ == "__main__":
    main(sys.argv[1], sys.argv[2], sys.argv[3:])
