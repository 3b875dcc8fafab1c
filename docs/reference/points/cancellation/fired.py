"""Cancelling a Deferred that has its result does nothing.

There is nothing left to stop. So it is safe to cancel without asking whether the answer has come.

Look at `cancel`: nothing follows from it, and the outcome is the answer.
"""

from twisted.internet.defer import Deferred

answer = Deferred()
answer.callback("200 OK")
answer.cancel()
