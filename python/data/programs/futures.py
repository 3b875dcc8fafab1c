"""A coroutine that awaits asyncio's futures and Twisted's Deferreds, on the reactor of asyncio."""

import asyncio

from twisted.internet import asyncioreactor

loop = asyncio.new_event_loop()
asyncio.set_event_loop(loop)
asyncioreactor.install(loop)

from twisted.internet import defer, reactor, task


async def sleeps():
    await asyncio.sleep(0.01)
    return "slept"


async def main():
    first = await defer.Deferred.fromFuture(asyncio.ensure_future(sleeps()))
    second = await task.deferLater(reactor, 0.01, lambda: "later")
    future = defer.succeed("as a future").asFuture(loop)
    third = await defer.Deferred.fromFuture(asyncio.ensure_future(future))
    return first, second, third


defer.ensureDeferred(main()).addCallback(print).addBoth(lambda _: reactor.stop())
reactor.run()
