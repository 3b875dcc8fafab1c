"""An errback runs on a failure, and a callback doesn't.

`errback` fires a Deferred with a failure: an exception that is passed on as an object, in a `Failure`. Each callback that comes first is skipped. The first errback is called with the failure.

Look at the one line `run`, which is that of the errback. The callback is skipped, which writes no line.
"""

from twisted.internet.defer import Deferred

answer = Deferred()
answer.addCallback(print)
answer.addErrback(lambda failure: f"no answer: {failure.getErrorMessage()}")
answer.errback(ValueError("bad request"))
