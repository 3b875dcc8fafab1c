"""A task ends with the error that its iterator raises.

So it does with the failure of a Deferred that it waits for. That reaches the Deferreds of `whenDone`, and nothing else: without an errback there the work ends in silence. The other tasks go on.

Look at `end letters`, and at `digits`, which has its turn after that.
"""

from twisted.internet.task import Clock, Cooperator


def two_steps():
    left = [2]

    def over():
        left[0] -= 1
        return left[0] == 0

    return over


def fails():
    raise ValueError("no page")
    yield


def pages(names):
    for name in names:
        print(name)
        yield


clock = Clock()
cooperator = Cooperator(two_steps, lambda tick: clock.callLater(1, tick))
letters = cooperator.cooperate(fails())
digits = cooperator.cooperate(pages("123"))
done = letters.whenDone()
done.addErrback(lambda failure: print("the letters failed"))
clock.advance(1)
