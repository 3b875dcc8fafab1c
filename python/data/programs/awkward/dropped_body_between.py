"""A request is dropped between two callbacks, inside Twisted's code, and fires a Deferred in its `finally`."""

import gc

from twisted.internet import defer

closed = defer.Deferred()
closed.addCallback(str.upper)


async def request(answer):
    """Reports its end."""
    try:
        await answer
    finally:
        closed.callback("closed")


def started():
    """A request that waits, of which nothing but its coroutine is left."""
    coroutine = request(defer.Deferred())
    coroutine.send(None)
    return coroutine


gc.disable()
deferred = defer.Deferred()
deferred.addCallback(lambda _: started())
deferred.addCallback(lambda _: "used")
deferred.addCallback(str.upper)
deferred.callback(None)
gc.enable()
