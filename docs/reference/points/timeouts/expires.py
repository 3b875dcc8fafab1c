"""A time-out fails a Deferred with TimeoutError.

It is Twisted's TimeoutError, of `twisted.internet.defer`, not Python's. An errback that is to handle it comes behind `addTimeout`.

Look at `timeout`, and what follows: a cancel, and in the next pair TimeoutError in the place of CancelledError.
"""

from twisted.internet.defer import Deferred, TimeoutError
from twisted.internet.task import Clock


def too_late(failure):
    failure.trap(TimeoutError)
    return "504 Gateway Timeout"


clock = Clock()
answer = Deferred()
answer.addTimeout(5, clock)
answer.addErrback(too_late)
clock.advance(5)
