"""Compares an implementation with ours in every order of a script's posts."""

from __future__ import annotations

import json
from typing import Iterable, Iterator, List, NamedTuple, Optional

from ..orders import Order, Posting, number_of_orders, posting_of, some_orders
from ..sampling import MOST_DRAWN_FROM, sampled
from ..survey import counted
from .classes import BUILT_IN
from .comparing import Case, Comparison, Difference
from .posts import has_posts
from .programs import Answer, Program
from .script import Refused, read


class Chosen(NamedTuple):
    """In how many orders a script is compared at most, and by which seed these are drawn where it has more.

    Without a seed they are spread evenly, and so they are where there are too many to draw from.
    """

    most: int
    seed: Optional[int] = None

    def orders(self, posting: Posting) -> Iterable[Order]:
        """The orders in which a script is compared, each once."""
        if self.seed is None or not self.most < number_of_orders(posting) <= MOST_DRAWN_FROM:
            return some_orders(posting, self.most)
        return dict.fromkeys(sampled(posting, self.most, self.seed))

    @property
    def of_more(self) -> str:
        """What is said of scripts that have more orders."""
        if self.seed is None:
            return f"{self.most} of them; --most N allows more"
        return f"a sample of {self.most}"


class InOrders(Comparison):
    """Compares as Comparison does, but a script with posts in every order, or in some orders, where it has more.

    In each order ours is asked, too, so a row of such a script isn't held against its own output.
    """

    def __init__(self, ours: Program, theirs: Program, trials: int, chosen: Chosen) -> None:
        super().__init__(ours, theirs, trials)
        self._chosen = chosen

    def _cases(self, script: str, expected: Answer) -> Iterator[Case]:
        posting = posting_in(script)
        if posting is None:
            yield from super()._cases(script, expected)
            return
        for order in self._chosen.orders(posting):
            batches = [list(batch) for batch in order]
            yield Case(self._ours.answer(script, batches), batches, order)

    def _settles(self, found: Optional[Difference]) -> bool:
        return found is not None and found.entry is None


def posting_in(script: str) -> Optional[Posting]:
    """What decides the orders of a script that has posts; None of one that has none, or is refused."""
    if '"callers"' not in script:
        return None
    try:
        read(script.encode(), list(BUILT_IN))
    except Refused:
        return None
    root = json.loads(script)
    return posting_of(root) if has_posts(root) else None


class Orders:
    """Counts the scripts with posts that were compared in every order, and those that were in some of their orders."""

    def __init__(self, chosen: Chosen) -> None:
        self._chosen = chosen
        self._whole = 0
        self._part = 0

    def count(self, script: str) -> None:
        """Counts a script, where it has posts."""
        posting = posting_in(script)
        if posting is not None:
            is_part = number_of_orders(posting) > self._chosen.most
            self._part += is_part
            self._whole += not is_part

    def lines(self) -> List[str]:
        """What is said of them at the end."""
        said = []
        if self._whole:
            said.append(f"{_scripts(self._whole, 'posts, and')} compared in every order")
        if self._part:
            more = f"more than {counted(self._chosen.most, 'order')}, and"
            said.append(f"{_scripts(self._part, more)} compared in {self._chosen.of_more}")
        return said


def _scripts(count: int, have: str) -> str:
    return f"1 script has {have} was" if count == 1 else f"{count} scripts have {have} were"
