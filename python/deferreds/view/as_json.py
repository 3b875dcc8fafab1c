"""The report of a run, and the lines that made its Deferreds, as JSON (docs/VIEW.md, "As JSON")."""

from __future__ import annotations

import json
from typing import Any, Dict, List, Optional

from .findings import Finding
from .phrases import OfDeferred, OfPlace, Phrase
from .places import Frame, Place
from .run import Run
from .sites import Site
from .terminal import Terminal
from .units import seconds_of

_VERSION = 1

Json = Dict[str, Any]


class AsJson:
    """Writes what other programs read of the view."""

    def __init__(self, run: Run) -> None:
        self._run = run
        self._terminal = Terminal(run, False)

    def text(self) -> str:
        """The whole as one line, in ASCII: a text of a stranger does nothing to a terminal."""
        run = self._run
        told = {
            "version": _VERSION,
            "title": run.title,
            "tick": run.tick or None,
            "lines": len(run.fold.rows),
            "deferreds": len(run.fold.records),
            "problems": [self._terminal.said(problem) for problem in run.problems],
            "report": [self._finding(finding) for finding in run.report.findings],
            "made": [self._site(site) for site in run.inferred.sites.all],
        }
        return json.dumps(told)

    def _finding(self, finding: Finding) -> Json:
        phrases = [finding.said, *finding.details]
        return {
            "severity": finding.severity.value,
            "kind": finding.kind.value,
            "said": self._terminal.said(finding.said),
            "details": [self._terminal.said(detail) for detail in finding.details],
            "line": finding.row + 1 if finding.row is not None else None,
            "deferreds": list(dict.fromkeys(number for phrase in phrases for number in _numbers(phrase))),
            "places": [_place(place) for place in dict.fromkeys(place for phrase in phrases for place in _places(phrase))],
        }

    def _site(self, site: Site) -> Json:
        return {
            **_place(site.place),
            "function": site.function,
            "by": _frame(site.by) if site.by is not None else None,
            "made": len(site.records),
            "ended": site.ends,
            "median": self._time(site.median),
            "longest": self._time(site.longest),
            "odd": site.odd,
            "deferreds": [self._deferred(site, place) for place in range(len(site.records))],
        }

    def _deferred(self, site: Site, place: int) -> Json:
        record = site.records[place]
        return {
            "number": record.number,
            "name": record.name or None,
            "line": record.row + 1,
            "end": record.end,
            "unfired": self._time(self._run.inferred.sites.unfired(record)),
            "stack": [[_frame(frame) for frame in part] for part in self._run.places.stack_of(record.names)],
        }

    def _time(self, ticks: int) -> Json:
        """A time in ticks, and in seconds if it is known how long a tick was."""
        seconds: Optional[float] = seconds_of(ticks, self._run.tick) if self._run.tick else None
        return {"ticks": ticks, "seconds": seconds}


def _numbers(phrase: Phrase) -> List[int]:
    return [part.number for part in phrase if isinstance(part, OfDeferred)]


def _places(phrase: Phrase) -> List[Place]:
    return [part.place for part in phrase if isinstance(part, OfPlace)]


def _frame(frame: Frame) -> Json:
    return {**_place(frame.place), "function": frame.function}


def _place(place: Place) -> Json:
    return {"file": place.file, "line": place.line}
