"""Tasks take turns, a step each.

The next item of an iterator is a step of its task. Tasks have their turns in the order in which they joined, and a tick goes on where the one before has ended. Here a tick has two steps, and ticks are a second apart.

Look at the lines `step`, two in each tick.
"""

from twisted.internet.task import Clock, Cooperator


def two_steps():
    left = [2]

    def over():
        left[0] -= 1
        return left[0] == 0

    return over


def pages(names):
    for name in names:
        print(name)
        yield


clock = Clock()
cooperator = Cooperator(two_steps, lambda tick: clock.callLater(1, tick))
letters = cooperator.cooperate(pages("abc"))
digits = cooperator.cooperate(pages("123"))
lines = cooperator.cooperate(pages("xyz"))
clock.advance(1)
clock.advance(1)
