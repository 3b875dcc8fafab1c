"""Locks that are taken in different orders: each is held by a body that awaits a token of the next, and the last one of the first."""

from __future__ import annotations

from typing import Dict, List, NamedTuple, Optional

from .fold import Fold
from .records import Made
from .tokens import Held


class Link(NamedTuple):
    """A lock by its number, who holds a token of it, and the lock of which its body awaits one."""

    lock: int
    held: Held
    awaited: int


def crossed(fold: Fold, held: Dict[int, List[Held]]) -> List[List[Link]]:
    """The circles among these locks, each once, with the lock of the least number first."""
    links: Dict[int, Link] = {}
    for lock, holders in held.items():
        link = _link(fold, lock, holders)
        if link is not None:
            links[lock] = link
    found = [_ring(links, lock) for lock in links]
    return [ring for ring in found if ring and ring[0].lock == min(link.lock for link in ring)]


def _link(fold: Fold, lock: int, holders: List[Held]) -> Optional[Link]:
    """Which lock is awaited by the holders of all tokens of this one: by the first of them."""
    awaited = [_awaited(fold, one) for one in holders]
    if not holders or any(number is None for number in awaited):
        return None
    return Link(lock, holders[0], awaited[0] or 0)


def _awaited(fold: Fold, held: Held) -> Optional[int]:
    """The lock of which the body that holds a token awaits one."""
    body = fold.records.get(held.body) if held.body is not None else None
    token = fold.records.get(body.awaits) if body is not None and body.fired is None and body.awaits is not None else None
    return token.of if token is not None and token.made is Made.ACQUIRE and token.fired is None else None


def _ring(links: Dict[int, Link], start: int) -> List[Link]:
    """The links from a lock back to it; none if they don't lead there."""
    ring: List[Link] = []
    at: Optional[int] = start
    while at is not None and at in links and len(ring) <= len(links):
        ring.append(links[at])
        at = links[at].awaited
        if at == start:
            return ring
    return []
