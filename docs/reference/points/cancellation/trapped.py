"""A CancelledError is a failure like any other.

An errback that handles all failures handles this one, too. The chain then goes on with a value, although it was cancelled. Trap the errors that you expect, and let CancelledError pass.

Look at the outcomes. Both were cancelled, but `careless` has a page as if nothing had happened.
"""

from twisted.internet.defer import Deferred


def missing(failure):
    failure.trap(KeyError)
    return "404 Not Found"


careless = Deferred()
careless.addErrback(lambda failure: "404 Not Found")
careful = Deferred()
careful.addErrback(missing)
careless.cancel()
careful.cancel()
