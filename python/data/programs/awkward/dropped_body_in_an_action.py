"""A request is dropped with the last callback of its answer, inside Twisted's code, and fires a Deferred in its `finally`."""

import gc

from twisted.internet import defer

closed = defer.Deferred()
closed.addCallback(str.upper)


async def request(answer):
    """Reports its end."""
    try:
        await answer
    finally:
        closed.callback("closed")


def started():
    """A request that waits, of which nothing but its coroutine is left."""
    coroutine = request(defer.Deferred())
    coroutine.send(None)
    return coroutine


gc.disable()
defer.succeed(started()).addCallback(lambda _: None)
gc.enable()
