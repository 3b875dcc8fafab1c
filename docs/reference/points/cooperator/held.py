"""A task whose step yields a Deferred waits for it, and the others go on.

The task takes no turns until that Deferred fires. Then it joins again, last. So a task can ask a server at each step, and doesn't hold up the rest.

Look at `hold` and `resumetask`: between them `digits` has all turns.
"""

from twisted.internet.defer import Deferred
from twisted.internet.task import Clock, Cooperator


def one_step():
    return lambda: True


def asks():
    yield answer
    print("the answer is here")
    yield


def pages(names):
    for name in names:
        print(name)
        yield


clock = Clock()
answer = Deferred()
cooperator = Cooperator(one_step, lambda tick: clock.callLater(1, tick))
asking = cooperator.cooperate(asks())
digits = cooperator.cooperate(pages("123"))
clock.advance(1)
clock.advance(1)
clock.advance(1)
answer.callback("200 OK")
clock.advance(1)
clock.advance(1)
