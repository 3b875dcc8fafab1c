"""`onTimeoutCancel` makes something else of the time-out.

It is called with the result of the cancel, and with the seconds. What it returns is the result in the place of TimeoutError, so it may be a value.

Look at the first `set` behind `timeout`: there is no TimeoutError.
"""

from twisted.internet.defer import Deferred
from twisted.internet.task import Clock


def stale(result, seconds):
    return "a page from the cache"


clock = Clock()
answer = Deferred()
answer.addTimeout(5, clock, onTimeoutCancel=stale)
clock.advance(5)
