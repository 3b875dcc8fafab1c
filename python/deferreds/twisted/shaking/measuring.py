"""Runs programs shaken by many seeds, and counts how many of the runs fail, and what they met."""

from __future__ import annotations

import importlib
from collections import Counter
from typing import Counter as Counts, List, NamedTuple, Optional, Sequence

from .choices import Choices, Settings
from .install import install
from .log import Log
from .plain import run_plain
from .runs import Ended, run
from .shaker import Shaker

#: how long a run may take
_SECONDS = 60.0


class Measured(NamedTuple):
    """A program: which seeds fail, what the last failing run printed, and how many perturbations of which kind were met."""

    failing: Sequence[int]
    printed: str
    met: Counts[str]


def run_shaken(path: str, settings: Optional[Settings], reactor: str = "") -> Ended:
    """A run of a program; a plain one, if there are no settings. `reactor` is the name of one that is installed first."""

    def program(log: Log) -> int:
        if settings is not None:
            install(Shaker(Choices(settings), log, follows=True))
        if reactor:
            importlib.import_module(f"twisted.internet.{reactor}reactor").install()
        return run_plain(path, [], False)

    return run(program, _SECONDS)


def fails(ended: Ended) -> bool:
    """Whether a run fails by its status, its time, or an error that it logs."""
    return ended.status != 0 or bool(ended.errors)


def measured(path: str, choices: Sequence[Optional[Settings]], reactor: str = "") -> Measured:
    """The runs of a program by these; the failing ones by their seeds, or by 0 if they are plain."""
    failing: List[int] = []
    printed = ""
    met: Counts[str] = Counter()
    for settings in choices:
        ended = run_shaken(path, settings, reactor)
        met.update(key.split(" ", 1)[0] for key in ended.met)
        if fails(ended):
            failing.append(0 if settings is None else settings.seed)
            printed = ended.output
    return Measured(failing, printed, met)
