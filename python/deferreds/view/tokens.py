"""Who holds the tokens of locks and semaphores that aren't released: which body asked for each, and since which line.

A release gives back a token that its own body has got, or else one that was given to the Deferred in whose side it happens. If neither
is there, it is a guess which one it gives back, unless only one is out.
"""

from __future__ import annotations

from typing import Dict, List, NamedTuple, Optional

from .bodies import Bodies
from .fold import Fold
from .records import By
from .world import RELEASED, Lock


class Held(NamedTuple):
    """A token that is held: the Deferred that it was given to, the row in which, and the body that asked for it, if one did."""

    deferred: int
    row: int
    body: Optional[int]


class Holders:
    """The tokens of a lock that are held at the end, the first that was given first."""

    def __init__(self, fold: Fold, bodies: Bodies, asked: Dict[int, int], lock: Lock) -> None:
        self._fold = fold
        self._acting = bodies.acting
        self.held: List[Held] = []
        #: whether it is known which tokens were released
        self.is_sure = True
        for deferred, row in lock.moves:
            if deferred == RELEASED:
                self._release(row)
            else:
                self.held.append(Held(deferred, row, self._acting.get(asked.get(deferred, row))))

    def _release(self, row: int) -> None:
        """A token is released: the one that fits is held no more."""
        if not self.held:
            return
        body = self._acting.get(row)
        actor = self._fold.rows[row].actor
        own = [one for one in self.held if body is not None and one.body == body]
        given = [one for one in self.held if actor.by is By.SIDE and one.deferred == actor.number]
        fitting = own or given
        if not fitting and len(self.held) > 1:
            self.is_sure = False
        released = fitting[0] if fitting else self.held[0]
        self.held = [one for one in self.held if one.deferred != released.deferred]


def asked_in(fold: Fold) -> Dict[int, int]:
    """The row in which each Deferred of a token was asked for."""
    return {row.entry.deferred: row.place for row in fold.rows if row.entry.word == "acquire"}
