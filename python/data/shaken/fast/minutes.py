"""A minute of loops, sleeps and a time-out, in their order. Python's clocks go on as the reactor's does."""
import sys
import time

from twisted.internet import defer, reactor, task

seen = []
began = time.time(), time.monotonic(), reactor.seconds()


@defer.inlineCallbacks
def main():
    loop = task.LoopingCall(lambda: seen.append("turn"))
    loop.start(12.0, now=False)
    for second in (5, 20, 31):
        yield task.deferLater(reactor, second, seen.append, second)
    try:
        yield defer.Deferred().addTimeout(3.5, reactor)
    except defer.TimeoutError:
        seen.append("late")
    yield task.deferLater(reactor, 0.6, loop.stop)


reactor.callWhenRunning(lambda: main().addBoth(lambda _: reactor.stop()))
reactor.run()
passed = [now - then for now, then in zip((time.time(), time.monotonic(), reactor.seconds()), began)]
print(seen, passed)
sys.exit(seen != [5, "turn", "turn", 20, "turn", "turn", 31, "late", "turn"] or not all(60 <= one < 75 for one in passed))
