"""What a run is read from, beside its text. A page that draws itself has these, too."""

from __future__ import annotations

import json
from typing import NamedTuple, Optional, Sequence

from ..repeats import written_out


class Source(NamedTuple):
    """A text of a journal with its outcomes, or of what `./deferreds --json` has printed, and what is known beside it."""

    title: str
    is_journal: bool
    #: the script and the places, as JSON, or empty texts
    script: str = ""
    places: str = ""
    #: how long a tick was where the run was recorded, or an empty text
    tick: str = ""
    #: of a journal, whether the run stopped at its limit, and at which line each event of the script begins, where that is known
    stopped: Optional[bool] = None
    begins: Optional[Sequence[int]] = None
    #: what can't be relied on, or an empty text
    problem: str = ""
    #: how the run was shaken, as the list of its recording says it, as JSON, or an empty text
    shaken: str = ""

    @property
    def events(self) -> int:
        """How many events the script has, as far as it can be read."""
        try:
            document = json.loads(self.script) if self.script else None
        except (ValueError, RecursionError):
            return 0
        events = document.get("events") if isinstance(document, dict) else None
        return len(written_out(events)) if isinstance(events, list) else 0
