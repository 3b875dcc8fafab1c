"""A task that joins in a tick has the next tick scheduled at that moment.

Otherwise that happens when the tick ends. It matters only to calls that are due at the same time: those that are scheduled between the two moments run after the tick, and not before it. A script with `"turns":"twisted"` does the same. Without that, the next tick is always scheduled at the end of one.

Look at `later tick 2`: it comes right after `task digits`, before the delayed call is scheduled.
"""

from twisted.internet.task import Clock, Cooperator


def one_step():
    return lambda: True


def pages(names):
    for name in names:
        print(name)
        yield


def begins_another():
    digits = cooperator.cooperate(pages("123"))
    tea = clock.callLater(1, print, "tea")
    yield


clock = Clock()
cooperator = Cooperator(one_step, lambda tick: clock.callLater(1, tick))
first = cooperator.cooperate(begins_another())
clock.advance(1)
clock.advance(1)
