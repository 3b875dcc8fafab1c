"""What perturbs the run of this process, and notes what it has done and what has come."""

from __future__ import annotations

import time
from typing import Any, Dict, Mapping, Optional

from .choices import Choices
from .fast import Fast
from .log import Log

#: the lines of the log
MET, CAME = "met", "came"

#: how many things that come are noted
_MOST_CAME = 20_000
#: how many perturbations the facts name
_MOST_LISTED = 100

_sleep = time.sleep


class Shaker:
    """Perturbs a run by choices."""

    def __init__(self, choices: Choices, log: Optional[Log] = None, follows: bool = False, known: Mapping[str, object] = {}) -> None:
        """`follows`: what comes is noted, too, in its order. `known`: what a search knows of the failure, for the facts."""
        self._choices = choices
        self._log = log
        self._known = known
        #: the first perturbations that were met, and how many were
        self._met: Dict[str, str] = {}
        self._count = 0
        self._left = _MOST_CAME if follows else 0
        #: whether nothing is perturbed for now
        self.is_calm = False
        #: the clock that jumps, if it does
        self.fast = Fast(log) if choices.settings.is_fast else None

    @property
    def follows(self) -> bool:
        """Whether what comes is noted."""
        return self._left > 0

    def size(self, kind: str, who: str, number: int) -> Optional[float]:
        """How large a perturbation is, from 0 to 1; None, if it doesn't happen."""
        return None if self.is_calm else self._choices.size(kind, who, number)

    def delay(self, kind: str, who: str, number: int) -> Optional[float]:
        """How many milliseconds a perturbation takes; None, if it doesn't happen."""
        size = self.size(kind, who, number)
        return None if size is None else self._choices.milliseconds(f"{kind} {who} {number}", size)

    def pause(self, kind: str, who: str, number: int, words: str) -> None:
        """Has this thread sleep if it is perturbed. `words` say so, with `{}` for how long."""
        milliseconds = self.delay(kind, who, number)
        if milliseconds is not None:
            self.meet(kind, who, number, words.format(f"{milliseconds:.1f} ms"))
            _sleep(milliseconds / 1000)

    def meet(self, kind: str, who: str, number: int, words: str) -> None:
        """Notes that a perturbation happens."""
        key = f"{kind} {who} {number}"
        self._count += 1
        if len(self._met) < _MOST_LISTED:
            self._met[key] = words
        if self._log is not None:
            self._log.write(MET, key, words)

    @property
    def facts(self) -> Dict[str, Any]:
        """How the run is shaken, for its recording."""
        settings = self._choices.settings
        return {
            "seed": settings.seed,
            "kinds": sorted(settings.kinds),
            "most ms": settings.most,
            "longer": settings.stretch,
            "fast": settings.is_fast,
            "perturbations": dict(self._met),
            "of": self._count,
            **self._known,
        }

    def come(self, what: str, words: str) -> None:
        """Notes that something has come, which is known by this name in each run."""
        if self._left > 0 and self._log is not None:
            self._left -= 1
            self._log.write(CAME, what, words)
