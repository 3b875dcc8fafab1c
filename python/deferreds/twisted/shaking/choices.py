"""What a seed chooses: whether something is perturbed, and by how much.

Each perturbation has a key: its kind, whom it hits, and the how many-th time that is, as `hold Client@cache.py:31#1.r 2`. Its choice is a
hash of the seed and the key, and depends on nothing that was chosen before. So threads may come in any order, and to leave one
perturbation out changes no other.
"""

from __future__ import annotations

import hashlib
import math
from typing import Dict, FrozenSet, Mapping, NamedTuple, Optional, Tuple

#: the kinds of perturbations, and what each does
KINDS: Dict[str, str] = {
    "start": "the thread of a job sleeps before the job begins",
    "job": "the thread of a job sleeps when the job has ended, before its result is handed over",
    "post": "a thread sleeps before its callFromThread",
    "hold": "a TCP or UDP socket is seen as readable or writable later",
    "order": "a descriptor comes first or last of what is ready at once",
    "cut": "a read of TCP gives a part of the bytes",
    "short": "a write of TCP takes a part of the bytes",
    "late": "the reactor's thread sleeps when a delayed call is due, and polls once more before it",
    "child": "the end of child processes is seen later",
}

#: the longest delay that is chosen, and the shortest, in milliseconds
MOST_MS = 50.0
_LEAST_MS = 0.1

#: in which share of the runs a kind is off, or rare; else it is frequent
_OFF, _RARE = 0.25, 0.6
_CHANCE_RARE, _CHANCE_FREQUENT, _CHANCE_SLOW = 0.1, 0.35, 0.8
#: the share of what is perturbed nearly always in a run
_SLOW = 0.35
#: in which share of the runs all lengths are as likely; else short ones are
_EVEN = 0.6
#: after how many times the chance has fallen to half: who posts ten thousand times is not held up for minutes
_HALVES = 16
#: after how many times nothing happens to one any more, and no hash is made
_MOST_TIMES = 2_000


class Settings(NamedTuple):
    """What is chosen, by which seed."""

    seed: int
    kinds: FrozenSet[str] = frozenset(KINDS)
    most: float = MOST_MS
    #: the keys of the only ones that may happen; None, if all may
    only: Optional[FrozenSet[str]] = None
    #: by how much all delays are longer
    stretch: float = 1.0
    #: by how much the delays of these keys are longer, beside that
    lengths: Mapping[str, float] = {}
    #: whether the clock jumps where nothing but time can bring anything
    is_fast: bool = False

    @property
    def plain(self) -> Settings:
        """The same, with nothing perturbed."""
        return self._replace(kinds=frozenset(), only=None)


class Choices:
    """The choices of one run."""

    def __init__(self, settings: Settings) -> None:
        self.settings = settings
        self._prefix = f"{settings.seed}|"
        self._is_even = self._draw("lengths")[0] < _EVEN
        #: a kind may be off in a run, so that it doesn't hide in each of them what another one shows
        self._chances = {kind: self._chance_of(kind) for kind in KINDS}
        self._slow: Dict[Tuple[str, str], float] = {}

    def size(self, kind: str, who: str, number: int) -> Optional[float]:
        """How large this perturbation is, from 0 to 1; None, if it doesn't happen."""
        if kind not in self.settings.kinds or number > _MOST_TIMES:
            return None
        key = f"{kind} {who} {number}"
        if self.settings.only is not None and key not in self.settings.only:
            return None
        chance = self._chances_of(kind, who) / (1 + number / _HALVES)
        drawn, size = self._draw(key)
        return size if drawn < chance else None

    def milliseconds(self, key: str, size: float) -> float:
        """How long a delay of this size is."""
        most = self.settings.most
        even = _LEAST_MS + size * (most - _LEAST_MS)
        length = even if self._is_even else _LEAST_MS * math.exp(size * math.log(most / _LEAST_MS))
        return length * self.settings.stretch * self.settings.lengths.get(key, 1.0)

    def _chance_of(self, kind: str) -> float:
        drawn, _ = self._draw(f"level {kind}")
        return 0.0 if drawn < _OFF else _CHANCE_RARE if drawn < _RARE else _CHANCE_FREQUENT

    def _chances_of(self, kind: str, who: str) -> float:
        """How likely a perturbation of this kind hits this one."""
        known = self._slow.get((kind, who))
        if known is None:
            usual = self._chances[kind]
            known = _CHANCE_SLOW if usual and self._draw(f"slow {kind} {who}")[0] < _SLOW else usual
            self._slow[kind, who] = known
        return known

    def _draw(self, key: str) -> Tuple[float, float]:
        """Two numbers from 0 to 1, by the seed and the key."""
        digest = hashlib.blake2b((self._prefix + key).encode("utf-8", "backslashreplace"), digest_size=16).digest()
        return int.from_bytes(digest[:8], "big") / 2.0**64, int.from_bytes(digest[8:], "big") / 2.0**64
