"""The least perturbations with which a run still fails.

The fewest first ones with which it fails are found by halves. The last of these is needed, and so on with those before it.

Threads aren't determined: a set is enough if it fails in two of three runs, or in one, if all perturbations together fail in few. If runs
without any fail, too, as on a busy machine, it has to fail in five of six. What was found runs again, and has to fail clearly more often
than nothing does: else the machine has failed, and not what was found.
"""

from __future__ import annotations

from typing import Callable, List, NamedTuple, Sequence

#: how many runs are made with all of them, with none and with those that were found, and in how many of these it has to fail for being sure
AGAIN, _SURE = 5, 3
#: in how many more of these runs it has to fail than with none
_CLEARLY = 3


class _Rule(NamedTuple):
    """In how many runs, of how many, a set has to fail that is enough."""

    enough: int
    tries: int


_USUAL, _SELDOM, _BUSY = _Rule(2, 3), _Rule(1, 3), _Rule(5, 6)


class Needed(NamedTuple):
    """What is needed: the keys, how many runs it took to see, and in how many of five it failed with none, with all and with these alone."""

    keys: Sequence[str]
    runs: int
    none: int
    again: int
    #: whether other runs have failed that weren't shaken
    is_busy: bool = False
    alone: int = 0

    @property
    def needs_nothing(self) -> bool:
        """Whether it fails with none, too."""
        return self.none >= _SURE

    @property
    def is_known(self) -> bool:
        """Whether it fails with these clearly more often than with none."""
        return self.is_clear(self.alone)

    @property
    def is_seldom(self) -> bool:
        """Whether it fails with all, seldom, and never without."""
        return 0 < self.again < _SURE and not (self.none or self.is_busy)

    def is_clear(self, count: int) -> bool:
        """Whether as many of five runs are clearly more than fail with none; if it fails seldom, one is."""
        return count - self.none >= _CLEARLY or (self.is_seldom and count > 0)


class Cutting:
    """Cuts down."""

    def __init__(self, fails: Callable[[Sequence[str]], bool], most: int, is_busy: bool = False) -> None:
        """`fails`: whether a run with these perturbations alone does. `most`: the number of runs after which it stops.

        `is_busy`: runs are known to have failed that weren't shaken.
        """
        self._fails = fails
        self._most = most
        self._is_busy = is_busy
        self._rule = _USUAL
        self.runs = 0

    def cut(self, keys: Sequence[str]) -> Needed:
        """The least of these that it finds."""
        none = self._failing([])
        if none >= _SURE:
            return Needed([], self.runs, none, 0)
        needed = Needed(keys, self.runs, none, self._failing(keys), self._is_busy)
        if needed.is_seldom:  # (so that it takes more to know that it never fails without)
            needed = needed._replace(none=self._failing([]))
        for rule in _rules(needed):
            if needed.is_known or self._is_over:
                break
            self._rule = rule
            left = self._cut(list(keys))
            needed = needed._replace(keys=left, alone=self._failing(left), runs=self.runs)
        return needed

    def _failing(self, keys: Sequence[str]) -> int:
        """How many of five runs with these fail."""
        return sum(self._does_fail(keys) for _ in range(AGAIN))

    def _cut(self, keys: Sequence[str]) -> List[str]:
        """Those of these that it needs; with others, if there are no runs left to see it."""
        needed: List[str] = []
        left = list(keys)
        while left:
            least = self._first_ones(left, needed)
            left, needed = left[: least - 1], [left[least - 1], *needed]
            if self._is_over:
                return left + needed
            if self._is_enough(needed):
                break
        return self._without_others(needed)

    def _first_ones(self, keys: Sequence[str], needed: Sequence[str]) -> int:
        """How many of the first of these keys are enough, with those that are known to be needed: by halves, so that the last of them is needed."""
        few, many = 0, len(keys)
        while many - few > 1 and not self._is_over:
            middle = (few + many) // 2
            if self._is_enough([*keys[:middle], *needed]):
                many = middle
            else:
                few = middle
        return many

    def _without_others(self, keys: List[str]) -> List[str]:
        """These without those that aren't needed: a run that passes by chance makes a key look needed."""
        for key in list(keys):
            fewer = [other for other in keys if other != key]
            if fewer and self._is_enough(fewer):
                keys = fewer
        return keys

    def _is_enough(self, keys: Sequence[str]) -> bool:
        """Whether enough runs with these alone fail. No more are made than are needed to see it."""
        failed = 0
        for left in range(self._rule.tries, 0, -1):
            if failed + left < self._rule.enough or self._is_over:
                break
            failed += self._does_fail(keys)
            if failed >= self._rule.enough:
                return True
        return False

    @property
    def _is_over(self) -> bool:
        """Whether no more runs are left than the last look at what was found takes."""
        return self.runs >= self._most - AGAIN

    def _does_fail(self, keys: Sequence[str]) -> bool:
        self.runs += 1
        return self._fails(keys)


def _rules(needed: Needed) -> Sequence[_Rule]:
    """By which rules it is cut, one after the other, until what is found is known to fail."""
    if not needed.is_clear(needed.again):
        return []
    if needed.none or needed.is_busy:
        return [_BUSY]
    return [_SELDOM] if needed.is_seldom else [_USUAL, _BUSY]
