"""Loops that do nothing but use Deferreds, by which `python/measure --slower` measures the recorder.

They stand outside of `deferreds.twisted`, whose own code is no program that is recorded.
"""

from __future__ import annotations

from twisted.internet.defer import Deferred

_ROUNDS = 3_000


def _same(value: object) -> object:
    return value


def make_and_fire() -> None:
    """Makes Deferreds, each with a callback, and fires them."""
    for number in range(_ROUNDS):
        deferred: Deferred[object] = Deferred()
        deferred.addCallback(_same)
        deferred.callback(number)


def make_and_chain() -> None:
    """Makes pairs of Deferreds, of which one waits for the other, and fires them."""
    for number in range(_ROUNDS):
        first: Deferred[object] = Deferred()
        second: Deferred[object] = Deferred()
        first.addCallback(lambda value: second)
        first.callback(number)
        second.callback(number)
