"""Says whether a run fails, by how it has ended and by the plain runs."""

from __future__ import annotations

import os
import subprocess
import tempfile
from collections import Counter
from typing import Counter as Counts, NamedTuple, Optional, Sequence

from .runs import Ended

#: what a run is judged by, beside its time: its status and the errors that it logs; these and what is left; or a command, beside these
STATUS, LEFT = "status", "left"

_MOST_LEFT = 3


class Why(NamedTuple):
    """Why a run fails. Two runs fail alike if both are too late, or neither is: a race often has several faces."""

    is_late: bool
    text: str


class Judge:
    """Judges runs."""

    def __init__(self, until: str, most: float, plain: Sequence[Ended], looks_at_log: bool = True) -> None:
        """`until`: STATUS, LEFT or a command. `most`: how many seconds a run may take. `plain`: runs that pass.

        `looks_at_log`: errors that are logged count. A test judges them itself.
        """
        self._until = until
        self._most = most
        self._looks_at_log = looks_at_log
        #: what some plain run has logged, and has left
        self._errors: Counts[str] = Counter()
        self._left: Counts[str] = Counter()
        for ended in plain:
            self._errors |= ended.errors
            self._left |= ended.left

    def why(self, ended: Ended) -> Optional[Why]:
        """Why a run fails; None, if it passes."""
        if ended.status is None:
            return Why(True, f"it takes longer than {self._most:g} s")
        if ended.status:
            return Why(False, f"its status is {ended.status}" if ended.status > 0 else f"signal {-ended.status} ends it")
        errors = sorted(set(ended.errors) - set(self._errors))
        if errors and self._looks_at_log:
            return Why(False, f"an error is logged: {', '.join(errors)}")
        if self._until == LEFT:
            return self._why_left(ended)
        return None if self._until == STATUS else self._why_command(ended)

    def _why_left(self, ended: Ended) -> Optional[Why]:
        more = sorted((ended.left - self._left).items())
        if not more:
            return None
        shown = [what if count == 1 else f"{what} ({count} times)" for what, count in more]
        dots = ", .." if len(shown) > _MOST_LEFT else ""
        return Why(False, f"left at its end: {', '.join(shown[:_MOST_LEFT])}{dots}")

    def _why_command(self, ended: Ended) -> Optional[Why]:
        """The command sees the output of the run as its standard input, and in a file."""
        with tempfile.NamedTemporaryFile("w", prefix="deferreds.", suffix=".output", encoding="utf-8", errors="replace") as file:
            file.write(ended.output)
            file.flush()
            with open(file.name, encoding="utf-8", errors="replace") as given:
                environment = {**os.environ, "SHAKEN_OUTPUT": file.name}
                try:
                    ran = subprocess.run(["/bin/sh", "-c", self._until], stdin=given, capture_output=True, env=environment, check=False, timeout=self._most)
                except subprocess.TimeoutExpired:
                    return Why(False, f"`{self._until}` takes longer than {self._most:g} s")
        return None if ran.returncode == 0 else Why(False, f"`{self._until}` has status {ran.returncode}")
