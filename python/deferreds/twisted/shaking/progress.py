"""Says on standard error how far a search is."""

from __future__ import annotations

import sys
import time

from ...view.sizes import several
from ..recording.messages import Messages

#: how many seconds lie between two lines, if that is no terminal
_EACH_SECONDS = 10.0


class Progress:
    """The line that says how many runs were made."""

    def __init__(self, messages: Messages) -> None:
        self._messages = messages
        self._began = self._said = time.monotonic()
        self._is_terminal = sys.stderr is not None and sys.stderr.isatty()
        self._shown = 0

    @property
    def seconds(self) -> str:
        """How long it has taken."""
        return f"{time.monotonic() - self._began:.1f} s"

    def show(self, text: str) -> None:
        """Shows how far it is: on a terminal always, else once in a while."""
        line = f"{text}, {self.seconds}"
        if self._is_terminal:
            print(f"\r{line.ljust(self._shown)}", end="", file=sys.stderr, flush=True)
            self._shown = len(line)
        elif time.monotonic() - self._said > _EACH_SECONDS:
            self._said = time.monotonic()
            self._messages.say(line)

    def say(self, text: str) -> None:
        """Says a line that stays."""
        if self._shown:
            print(f"\r{' ' * self._shown}\r", end="", file=sys.stderr, flush=True)
            self._shown = 0
        self._messages.say(text)


def runs(count: int) -> str:
    """So many runs."""
    return several(count, "run", "runs")
