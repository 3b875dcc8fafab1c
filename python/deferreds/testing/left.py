"""What a test has left behind, and its recording as files."""

from __future__ import annotations

import json
from bisect import bisect_right
from typing import Dict, List, NamedTuple, Optional

from ..twisted.recording.how_shaken import how_shaken
from ..twisted.recording.recorder import Recorder
from ..twisted.recording.saying import Said
from ..twisted.telling import Advance, Record, Thing
from ..view.page import written_page
from ..view.findings import Finding, Kind, Severity
from ..view.run import Run, run_of
from ..view.names import PLACES, WHOLE_JOURNAL
from ..view.sources import Source
from ..view.terminal import Terminal

_MOST_SHOWN = 3


def has_left_nothing(recorder: Recorder) -> bool:
    """Whether it is known without a closer look that nothing is left: each Deferred is settled, and there is nothing else."""
    parts = recorder.parts
    others = any(isinstance(part, Thing) or part == "unhandled " for part in parts if type(part) in (str, Thing))
    return not others and all(map(_is_settled, recorder.records))


def _is_settled(record: Record) -> bool:
    if not record.fired or record.waits_for is not None or record.pauses > 0:
        return False
    return not isinstance(record.outcome.value, dict)  # which a failure is


class Recording(NamedTuple):
    """A test's recording: what it has left behind, why no script has all of it if none has, what is recorded in it as what it is made
    of, and its files by their suffixes."""

    left: List[str]
    problem: Optional[str]
    plainly: List[str]
    files: Dict[str, str]

    def told(self, failed: bool) -> str:
        """What is printed of the test, in a few words."""
        parts = ["failed"] if failed else []
        if self.left:
            more = len(self.left) - _MOST_SHOWN
            shown = self.left[:_MOST_SHOWN] + ([f"and {more} more"] if more > 0 else [])
            parts.append(f"left behind: {', '.join(shown)}")
        if self.problem is not None:
            parts.append(f"a script can't say this: {self.problem}")
        return "; ".join(parts + self.plainly)


def recording_of(recorder: Recorder, title: str) -> Recording:
    """The recording of a test that has ended. A run that a script can't say has a journal and a page alone."""
    said = Said(recorder)
    problem = _problem(said)
    why = f"a script can't say this: {problem}. What is shown may lack it" if problem is not None else ""
    places, journal = said.places, said.whole_output
    source = Source(title, True, said.text if problem is None else "", places or "", "", False, said.begins, why, json.dumps(how_shaken()))
    run = run_of(source, journal)
    files = {".journal": journal, ".html": written_page(run)}
    if places is not None:
        files[PLACES] = places
    if said.script is not None:
        files.update({".json": f"{said.text}\n", ".journal": said.output})
        if not said.is_whole:
            files[WHOLE_JOURNAL] = journal
    return Recording(_left(run, said), problem, [plainly.text for plainly in said.plainly], files)


def _problem(said: Said) -> Optional[str]:
    """Why a script can't say the run; None where it can."""
    if not said.problems:
        return None if said.script is not None else "bodies that the language has no words for"
    first = said.problems[0]
    more = len(dict.fromkeys(said.problems)) - 1
    at = f", at {first.place}" if first.place else ""
    return f"{first.reason}{at}{f', and {more} more' if more else ''}{_beginning(said)}"


def _beginning(said: Said) -> str:
    """Of how many events the script is, in words, if it isn't of all."""
    if said.script is None or said.events == len(said.actions):
        return ""
    return f"; the script is of the first {said.events:,} of {len(said.actions):,} events"


def _left(run: Run, said: Said) -> List[str]:
    terminal = Terminal(run, False)
    return [
        terminal.said(finding.said)
        for finding in run.report.findings
        if finding.severity in (Severity.BAD, Severity.LEFT) and finding.kind is not Kind.SHAKEN and not _came_to_the_program(finding, said)
    ]


def _came_to_the_program(finding: Finding, said: Said) -> bool:
    """Whether it is an error that the test got from what it called, so that it is the test's own."""
    if finding.kind is not Kind.UNHANDLED or finding.row is None:
        return False
    place = bisect_right(said.begins, finding.row) - 1
    if place < 0:
        return False
    event = said.actions[place]
    return event.raised is not None and not isinstance(event, Advance)  # what a reactor runs is logged by that
