"""The Deferred of `whenDone` fires when the iterator is used up.

Its value is the iterator. That is seen in a step of its own, after the last item: only then is the task done. Each `whenDone` makes another Deferred, and one that is made later is fired at once.

Look at `end`: it comes in the third step, though there are two items.
"""

from twisted.internet.task import Clock, Cooperator


def one_step():
    return lambda: True


def pages(names):
    for name in names:
        print(name)
        yield


clock = Clock()
cooperator = Cooperator(one_step, lambda tick: clock.callLater(1, tick))
letters = cooperator.cooperate(pages("ab"))
done = letters.whenDone()
done.addCallback(lambda iterator: print("done"))
clock.advance(1)
clock.advance(1)
clock.advance(1)
