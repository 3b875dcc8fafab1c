"""Reads what a recorded run has left at its end, by names that each run has."""

from __future__ import annotations

import re
from collections import Counter
from pathlib import Path
from typing import Counter as Counts, Iterator

from ...view.left import LeftDeferred, LeftGetters, LeftTask, LeftTokens
from ...view.run import Run, run_of
from ...view.sources import Source

#: the number behind the line in the name of what the same line made before
_FURTHER = re.compile(r"(_\d+)_\d+$")


def left_of(name: Path) -> Counts[str]:
    """What the recording of this name has left: Deferreds, tokens, tasks, and who waits at a queue."""
    for ending in (".whole.journal", ".journal"):
        journal = name.with_name(name.name + ending)
        if journal.is_file():
            text = journal.read_text(encoding="utf-8", errors="replace")
            return Counter(_left(run_of(Source(name.name, True, stopped=False), text)))
    return Counter()


def _left(run: Run) -> Iterator[str]:
    world = run.fold.world
    for one in run.left:
        if isinstance(one, LeftDeferred):
            names = run.fold.records[one.number].names
            yield f"the Deferred {_usual(names[0]) if names else 'without a name'}, which {_state(one)}"
        elif isinstance(one, LeftTokens):
            yield f"a token of {_usual(world.locks.all[one.number].name)}"
        elif isinstance(one, LeftGetters):
            yield f"a getter of {_usual(world.queues.all[one.number].name)}"
        elif isinstance(one, LeftTask):
            yield f"the task {_usual(world.tasks.all[one.number].name)}"


def _state(one: LeftDeferred) -> str:
    return {"waiting": "waits", "unfired": "is unfired"}.get(one.state, "is paused")


def _usual(name: str) -> str:
    """A name by its line, whichever of those of the line it is."""
    return _FURTHER.sub(r"\1", name)
