"""Leaves trial's janitor in peace: after each test it gives what is left two turns of the reactor, and calls the rest unclean."""

from __future__ import annotations

import sys
from typing import Any, Callable

from .shaker import Shaker

#: in so many turns more what was held back comes
_TURNS = 3


def shake(shaker: Shaker) -> None:
    """Perturbs nothing while the janitor works. Without trial there is none."""
    trial: Any = sys.modules.get("twisted.trial.util")
    if trial is None:
        return
    janitor = getattr(trial, "_Janitor")
    clean: Callable[[Any], Any] = janitor._cleanPending

    def _cleanPending(self: Any) -> Any:
        before, shaker.is_calm = shaker.is_calm, True
        try:
            reactor = self._getReactor()
            for _ in range(_TURNS):
                reactor.iterate(0)
            return clean(self)
        finally:
            shaker.is_calm = before

    janitor._cleanPending = _cleanPending
