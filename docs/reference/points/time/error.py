"""An error in a delayed call reaches no code of yours.

The reactor logs it, and goes on with the next call. Nobody waits for a delayed call, so nobody gets its error. Have it fire a Deferred if the result matters. A `Clock` raises the error from `advance`, so that a test sees it.

Look at `unhandled`, after which the second call runs as if nothing had happened.

Leaves Twisted: error-leaves-advance
"""

from twisted.internet.task import Clock


def fail():
    raise ValueError("no answer")


clock = Clock()
first = clock.callLater(1, fail)
second = clock.callLater(2, print, "the second call")
try:
    clock.advance(1)
except ValueError:
    print("the clock raises it")
clock.advance(1)
