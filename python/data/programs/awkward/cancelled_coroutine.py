"""A coroutine is cancelled while it awaits another one, as where a client hangs up."""

from twisted.internet import defer, task


async def query(clock):
    """Gives rows after a while."""
    deferred = defer.Deferred()
    clock.callLater(5, deferred.callback, "rows")
    return await deferred


async def handle(clock):
    """Asks for rows, and tidies up."""
    try:
        return await defer.ensureDeferred(query(clock))
    finally:
        print("tidy")


clock = task.Clock()
handling = defer.ensureDeferred(handle(clock))
handling.addErrback(lambda failure: print("failed:", failure.type.__name__))
clock.advance(1)
handling.cancel()
clock.advance(10)
