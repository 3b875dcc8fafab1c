"""A coroutine that handles a request is cancelled, as where its client hangs up."""

from twisted.internet import defer, task


async def ask(clock):
    answer = defer.Deferred()
    clock.callLater(5, answer.callback, "rows")
    return await answer


async def handle(clock):
    try:
        return await defer.ensureDeferred(ask(clock))
    finally:
        print("closed")


clock = task.Clock()
handled = defer.ensureDeferred(handle(clock))
handled.addErrback(lambda failure: print("failed:", failure.type.__name__))
clock.advance(1)
handled.cancel()
clock.advance(10)
