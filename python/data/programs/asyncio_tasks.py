"""Tasks of asyncio that use Deferreds, on the reactor of asyncio, whose loop also calls back Deferreds itself."""

import asyncio

from twisted.internet import asyncioreactor

loop = asyncio.new_event_loop()
asyncio.set_event_loop(loop)
asyncioreactor.install(loop)

from twisted.internet import defer, reactor, task, threads


async def asks(number):
    by_loop = defer.Deferred()
    loop.call_later(0.01, by_loop.callback, number)
    got = await by_loop.asFuture(loop)
    soon = defer.Deferred()
    loop.call_soon(soon.callback, got + 1)
    await asyncio.sleep(0)
    return await soon.asFuture(loop)


async def waits():
    await task.deferLater(reactor, 0.03, lambda: None)
    worked = await threads.deferToThread(lambda: "worked")
    return worked, await defer.Deferred.fromFuture(asyncio.ensure_future(asyncio.sleep(0.02, "slept")))


async def main():
    waited = defer.ensureDeferred(waits()).asFuture(loop)
    print(await asyncio.gather(*(asks(number) for number in range(3))))
    print(await waited)
    defer.Deferred(lambda deferred: print("cancelled")).asFuture(loop).cancel()
    late = defer.Deferred()
    late.addTimeout(0.01, reactor)
    try:
        await late.asFuture(loop)
    except defer.TimeoutError:
        print("timed out")
    steps = task.cooperate(iter([None] * 3))
    print(await asyncio.wait_for(steps.whenDone().asFuture(loop), 60) is not None)


def start():
    done = defer.Deferred.fromFuture(loop.create_task(main()))
    done.addErrback(lambda failure: failure.printTraceback()).addBoth(lambda nothing: reactor.stop())


reactor.callWhenRunning(start)
reactor.run()
