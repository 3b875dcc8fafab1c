"""When a task leaves the list, Twisted passes the next one by, once.

A task leaves when it ends, is paused, or waits for a Deferred. Those behind it move up by one place, and Twisted doesn't take that into account. So if the task has had its turn in this round, one of them loses its own. A script says so by `"turns":"twisted"`, as in recordings. Without that, `deferreds` passes nobody by.

Look at the second step: it would be the turn of `digits`, and `lines` has it.
"""

from twisted.internet.defer import Deferred
from twisted.internet.task import Clock, Cooperator


def one_step():
    return lambda: True


def asks():
    yield answer


def pages(names):
    for name in names:
        print(name)
        yield


clock = Clock()
answer = Deferred()
cooperator = Cooperator(one_step, lambda tick: clock.callLater(1, tick))
asking = cooperator.cooperate(asks())
digits = cooperator.cooperate(pages("123"))
lines = cooperator.cooperate(pages("xyz"))
clock.advance(1)
clock.advance(1)
clock.advance(1)
