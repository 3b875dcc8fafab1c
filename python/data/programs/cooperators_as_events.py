"""Cooperators after the first on a real reactor, which no script has by name: a task acts in the step in which it ends."""

from twisted.internet import defer, reactor, task

second, third = task.Cooperator(), task.Cooperator()
waited, failing, over = (defer.Deferred() for _ in range(3))
fired = defer.succeed(3)


def told(name):
    return lambda result: print(name, getattr(result, "type", type(result)).__name__)


def ends_late():
    yield waited
    yield fired
    yield None
    over.callback("the last step")


def catches():
    yield None
    try:
        fired.callback(4)
    except defer.AlreadyCalledError:
        print("caught")
    yield failing


def fails():
    later = defer.Deferred()
    second.cooperate(iter([None])).whenDone().chainDeferred(later)
    yield later
    fired.callback(5)
    yield None


def stops(other):
    yield None
    other.stop()
    reactor.callLater(0.01, waited.callback, 1)
    reactor.callLater(0.02, failing.errback, ValueError("no"))


def works():
    while True:
        yield None


task.cooperate(iter([None] * 3))
busy = second.cooperate(works())
for each in (busy, third.cooperate(works()), *map(second.cooperate, (catches(), fails(), stops(busy)))):
    each.whenDone().addBoth(told("ended"))
first = second.cooperate(ends_late())
first.pause()
first.resume()
first.whenDone().addBoth(told("first"))


def end(_):
    first.whenDone().addBoth(told("again"))
    held = third.cooperate(iter([defer.Deferred()]))
    third.stop()
    held.whenDone().addBoth(told("held"))
    reactor.callLater(0.03, reactor.stop)


over.addCallback(end)
reactor.run()
