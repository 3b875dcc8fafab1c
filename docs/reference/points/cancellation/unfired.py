"""A cancelled Deferred fails with CancelledError.

If it is unfired and has no canceller, `cancel` fires it with a CancelledError. Its errbacks run as with any other failure.

Look at `fire` directly behind `cancel`.
"""

from twisted.internet.defer import Deferred

answer = Deferred()
answer.addCallback(print)
answer.addErrback(lambda failure: failure.type.__name__)
answer.cancel()
