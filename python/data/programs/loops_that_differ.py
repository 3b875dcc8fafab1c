"""Loops that no script has as such, for one reason each, beside one that it has.

As a program, a word is the reason. As a module, each reason is a test on a Clock of its own.
"""

import gc
import itertools
import sys

from twisted.internet import defer, task
from twisted.trial import unittest

PART = 1 / 32  # each time is some of these


def told(name):
    return lambda result: print(name, getattr(result, "type", type(result)).__name__)


def looping(clock, function, *given, parts=2, now=True):
    """A loop that is started, and whose end is printed."""
    loop = task.LoopingCall(function, *given)
    loop.clock = clock
    loop.start(parts * PART, now).addBoth(told("ended"))
    return loop


def counts(clock):
    """Each turn prints another number, and the seventh isn't waited for."""
    numbers = itertools.count(1)
    loop = looping(clock, lambda: print("turn", next(numbers)), now=False)
    clock.callLater(13 * PART, loop.stop)


def stops(clock):
    """It stops itself in the third turn, and was stopped before."""
    left = [3]

    def turn():
        left[0] -= 1
        if left[0] == 0:
            loop.stop()

    def again():
        try:
            loop.stop()
        except AssertionError:
            print("isn't running")

    loop = looping(clock, turn)
    clock.callLater(7 * PART, again)


def once(clock):
    """One turn fires a Deferred, one schedules a call, and one starts another loop."""
    turns = iter(
        (
            lambda: defer.succeed(1).addCallback(print),
            lambda: None,
            lambda: clock.callLater(PART, print, "later"),
            lambda: looping(clock, print, "other", parts=3),
        )
    )

    def turn():
        next(turns, bool)()

    looping(clock, turn)


def raises(clock):
    """The third turn raises an error; in another loop, the Deferred that the second one gave fails."""
    left = [3]

    def turn():
        left[0] -= 1
        if left[0] == 0:
            raise ValueError("the third turn")

    def fails():
        given = defer.Deferred()
        clock.callLater(PART, given.callback if left[0] > 1 else given.errback, ValueError("late"))
        return given.addCallback(lambda _: None)

    looping(clock, turn)
    looping(clock, fails, parts=3)


def waits(clock):
    """A turn returns a Deferred, and the next one doesn't. It is stopped while one waits."""
    waiting = []

    def turn():
        if len(waiting) % 2:
            waiting.append(None)
            return 3
        waiting.append(defer.Deferred())
        clock.callLater(3 * PART, lambda given=waiting[-1]: given.called or given.callback("late"))
        return waiting[-1]

    loop = looping(clock, turn)
    clock.callLater(11 * PART, loop.stop)


def resets(clock):
    """It is reset, also in a turn, and a turn is run by hand."""
    numbers = itertools.count(1)

    def turn():
        print("turn", next(numbers))
        loop.reset()

    loop = looping(clock, turn, parts=4, now=False)
    clock.callLater(2.5 * PART, loop.reset)
    clock.callLater(7.5 * PART, loop)
    clock.callLater(14.5 * PART, loop.reset)


def again(clock):
    """It is started again, also while a turn waits, and where it runs."""
    waiting = []

    def turn():
        waiting.append(defer.Deferred())
        return waiting[-1] if len(waiting) == 2 else None

    loop = looping(clock, turn)

    def start():
        loop.stop()
        loop.start(3 * PART).addBoth(told("ended again"))
        try:
            loop.start(PART)
        except AssertionError:
            print("runs")
        waiting[1].callback(None)

    clock.callLater(2.5 * PART, start)


def by_hand(clock):
    """Other code fires its Deferred."""
    numbers = itertools.count(1)

    def turn():
        number = next(numbers)
        print("turn", number)
        if number == 3:
            loop.stop()

    loop = task.LoopingCall(turn)
    loop.clock = clock
    ended = loop.start(2 * PART)
    ended.callback("by hand")
    ended.addBoth(print)


def many(clock):
    """Several, one of them with a count of missed turns; they are started and stopped in each other's turns."""
    loops = []

    def turn(count=1):
        print("turn", count, len(loops))
        if len(loops) < 4:
            loops.append(None)
            loops[-1] = looping(clock, turn, parts=len(loops), now=len(loops) % 2 == 0)
        elif loops[-1] is not None and loops[-1].running:
            loops[-1].stop()

    counting = task.LoopingCall.withCount(turn)
    counting.clock = clock
    counting.start(3 * PART).addBoth(told("ended"))
    clock.callLater(25 * PART, counting.stop)


def beside(clock):
    """A Cooperator whose task acts in the step in which it ends, delayed calls, and a loop that makes tasks."""
    numbers = itertools.count(1)
    cooperator = task.Cooperator(lambda: lambda: True, lambda tick: clock.callLater(PART / 2, tick))

    def work(number):
        for step in range(number % 3):
            yield clock.callLater(PART / 4, print, "step", number, step)
        defer.succeed(number).addCallback(print)

    def turn():
        number = next(numbers)
        clock.callLater(PART / 3, print, "call", number)
        if number < 8:
            cooperator.cooperate(work(number)).whenDone().addBoth(told("worked"))

    looping(clock, turn)


REASONS = (counts, stops, once, raises, waits, resets, again, by_hand, many, beside)


class OnAClock(unittest.TestCase):
    """Each reason, on a Clock."""


def of(reason):
    """The test of a reason."""

    def test(self):
        clock = task.Clock()
        looping(clock, lambda: None)
        reason(clock)
        clock.pump([PART / 2] * 70)
        # (what nobody handles is logged when its Deferred is collected)
        gc.collect()
        self.flushLoggedErrors(AssertionError)

    return test


for _reason in REASONS:
    setattr(OnAClock, f"test_{_reason.__name__}", of(_reason))


if __name__ == "__main__":
    from twisted.internet import reactor

    looping(reactor, lambda: None)
    globals()[sys.argv[1]](reactor)
    reactor.callLater(35 * PART, reactor.stop)
    reactor.run()
