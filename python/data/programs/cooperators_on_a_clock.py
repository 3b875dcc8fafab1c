"""A Cooperator after the first on a Clock, which no script has by name, for one reason each.

As a program, a word is the reason, and the reactor's time has to be virtual. As a module, each reason is a test on a Clock of its own.
"""

import itertools
import sys

from twisted.internet import defer, task
from twisted.trial import unittest


def told(name):
    return lambda result: print(name, getattr(result, "type", type(result)).__name__)


def cooperator_on(clock, *delays, steps=1):
    """One whose ticks are due after these times in turn, and have so many steps."""
    times = itertools.cycle(delays)

    def begin():
        left = itertools.count(1)
        return lambda: next(left) >= steps

    return task.Cooperator(begin, lambda tick: clock.callLater(next(times), tick))


def work(name, steps):
    for step in range(steps):
        if step % 500 == 0:
            print(name, step)
        yield None


def acts(clock):
    """A task acts in the step in which it ends. Others raise, wait and are stopped."""
    cooperator = cooperator_on(clock, 1, steps=2)
    waited, failing, over = (defer.Deferred() for _ in range(3))
    fired = defer.succeed(3)
    busy = cooperator.cooperate(work("busy", 9))

    def ends():
        yield waited
        yield fired
        over.callback("the last step")

    def catches():
        yield None
        try:
            fired.callback(4)
        except defer.AlreadyCalledError:
            print("caught")
        yield failing

    def fails():
        yield None
        busy.stop()
        try:
            busy.pause()
        except task.TaskStopped:
            clock.callLater(1, waited.callback, 1)
            clock.callLater(2, failing.errback, ValueError("no"))
        fired.callback(5)

    for each in (busy, *map(cooperator.cooperate, (catches(), fails()))):
        each.whenDone().addBoth(told("ended"))
    last = cooperator.cooperate(ends())
    last.pause()
    last.resume()
    last.whenDone().addBoth(told("last"))
    over.addCallback(lambda _: last.whenDone().addBoth(told("again")))


def many(clock):
    """A tick has more than 1,000 steps."""
    cooperator_on(clock, 1, steps=1_200).coiterate(work("many", 1_500)).addBoth(told("ended"))


def times(clock):
    """Ticks are due after different times."""
    cooperator = cooperator_on(clock, 1, 2, 4)
    for name in ("one", "two"):
        cooperator.coiterate(work(name, 3)).addBoth(told(name))


def starts(clock):
    """It is started after it was stopped."""
    cooperator = cooperator_on(clock, 2)
    cooperator.coiterate(work("first", 3)).addErrback(told("first"))

    def again():
        cooperator.stop()
        cooperator.coiterate(work("refused", 3)).addErrback(told("refused"))
        cooperator.start()
        cooperator.coiterate(work("again", 3)).addBoth(told("again"))

    clock.callLater(3, again)


def raises(clock):
    """A tick raises an error."""
    left = [2]

    def schedule(tick):
        left[0] -= 1
        if left[0] < 0:
            raise ValueError("no more ticks")
        return clock.callLater(1, tick)

    task.Cooperator(lambda: lambda: True, schedule).coiterate(work("raises", 3)).addBoth(told("raises"))


class OnAClock(unittest.TestCase):
    def started(self, begin):
        clock = task.Clock()
        cooperator_on(clock, 1).cooperate(work("by name", 2))
        begin(clock)
        return clock

    def test_acts(self):
        self.started(acts).pump([1] * 9)

    def test_many(self):
        self.started(many).pump([1] * 3)

    def test_times(self):
        self.started(times).pump([1] * 20)

    def test_starts(self):
        self.started(starts).pump([1] * 12)

    def test_raises(self):
        clock = self.started(raises)
        clock.advance(1)
        self.assertRaises(ValueError, clock.advance, 1)


if __name__ == "__main__":
    from twisted.internet import reactor

    cooperator_on(reactor, 1).cooperate(work("by name", 2))
    globals()[sys.argv[1]](reactor)
    reactor.callLater(30, reactor.stop)
    reactor.run()
