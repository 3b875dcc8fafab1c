"""The page on which a run that fails stands beside one that passes."""

from __future__ import annotations

import json
from typing import Any, Mapping, NamedTuple

from ...view.compared import Compared
from ...view.compared_forms import ComparedPage
from ...view.inputs import Failed, run_script
from ...view.names import PLACES, WHOLE_JOURNAL
from ...view.recordings import Recorded
from ...view.run import Run, run_of
from ...view.sources import Source


class Recording(NamedTuple):
    """A recording: its texts by the endings of their files, and what its list says."""

    files: Mapping[str, str]
    facts: Mapping[str, Any]

    @property
    def has_script(self) -> bool:
        """Whether it has a script."""
        return ".json" in self.files


def page_beside(name: str, failing: Recording, passing: Recording) -> str:
    """The page of both: first what fails, and so the cause is on top."""
    first = _run(failing, f"{name}, which fails")
    second = _run(passing, f"{name}, which passes")
    return ComparedPage(Compared(first, second)).html()


def _run(recording: Recording, title: str) -> Run:
    """The run of a recording: by its script, if that has all of it, and else by its journal."""
    files, facts = recording.files, recording.facts
    shaken = facts.get("shaken")
    recorded = Recorded(str(facts.get("tick", "")), json.dumps(shaken) if shaken else "")
    places = files.get(PLACES, "")
    if recording.has_script and WHOLE_JOURNAL not in files:
        try:
            run = run_script(files[".json"].encode(), title).beside(places, recorded).run()
            run.title = title
            return run
        except Failed:  # (the program isn't there)
            pass
    journal = files.get(WHOLE_JOURNAL, files.get(".journal", ""))
    return run_of(Source(title, True, "", places, recorded.tick, False, shaken=recorded.shaken), journal)
