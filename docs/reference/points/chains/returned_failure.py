"""A callback that returns a Failure does the same as one that raises.

The side that runs next depends on the result alone: an object of the class `Failure` takes the errback. So a callback can pass on a failure that it got from elsewhere, without raising it.

Look at `set`: nothing was raised, and the result is a failure.
"""

from twisted.internet.defer import Deferred
from twisted.python.failure import Failure

number = Deferred()
number.addCallback(lambda text: Failure(ValueError("no number")))
number.addErrback(lambda failure: 0)
number.callback("twelve")
