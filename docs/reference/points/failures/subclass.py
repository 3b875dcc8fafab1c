"""`trap` also takes subclasses.

LookupError traps a KeyError, as `except LookupError` does. Trapping `Exception` takes everything, also CancelledError and your own bugs.

Look at the outcome: the KeyError was trapped by its parent.
"""

from twisted.internet.defer import Deferred


def missing(failure):
    failure.trap(LookupError)
    return "404 Not Found"


page = Deferred()
page.addErrback(missing)
page.errback(KeyError("index"))
