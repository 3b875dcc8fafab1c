"""Time-outs, and calls that are moved and cancelled on a real reactor. Each begins when the one before is over."""

from twisted.internet import defer, reactor


def call(seconds, value):
    """A delayed call, and the Deferred that it fires."""
    fired = defer.Deferred()
    return reactor.callLater(seconds, fired.callback, value), fired


@defer.inlineCallbacks
def main():
    for attempt in range(3):
        late = defer.Deferred()
        late.addTimeout(0.01, reactor)
        try:
            yield late
        except defer.TimeoutError:
            print("attempt", attempt, "timed out")
    early = defer.Deferred()
    early.addTimeout(60, reactor)
    reactor.callLater(0.01, early.callback, "in time")
    print((yield early))
    handled = defer.Deferred()
    handled.addTimeout(0.01, reactor, lambda result, seconds: "a handler")
    print((yield handled))

    sooner, fired = call(60, "sooner")
    sooner.reset(0.01)
    print((yield fired))
    later, fired = call(0.01, "later")
    later.reset(0.03)
    print((yield fired))
    delayed, fired = call(0.01, "delayed")
    delayed.delay(0.02)
    print((yield fired))
    hastened, fired = call(60, "hastened")
    hastened.delay(-59.99)
    print((yield fired))
    twice, fired = call(60, "moved twice")
    twice.reset(30)
    reactor.callLater(0.01, twice.reset, 0.01)
    print((yield fired))

    kept, fired = call(0.02, "the other was cancelled")
    cancelled, never = call(0.01, None)
    never.addCallback(print)
    cancelled.cancel()
    print((yield fired))
    print(kept.active(), cancelled.active())


main().addErrback(lambda failure: failure.printTraceback()).addBoth(lambda nothing: reactor.stop())
reactor.run()
