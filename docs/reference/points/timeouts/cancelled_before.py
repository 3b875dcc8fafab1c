"""A cancel before the time-out stays a CancelledError.

Only if the timer has expired does CancelledError become TimeoutError. So an errback can tell the two apart.

Look at the outcome, which is CancelledError.
"""

from twisted.internet.defer import Deferred
from twisted.internet.task import Clock

clock = Clock()
answer = Deferred()
answer.addTimeout(5, clock)
answer.addErrback(lambda failure: failure.type.__name__)
clock.advance(3)
answer.cancel()
clock.advance(2)
