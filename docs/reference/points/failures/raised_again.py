"""`raiseException` raises the exception again.

So `try` and `except` can sort out a failure inside an errback. What leaves the errback is the result, with the same class and text.

Look at the outcomes: one error is caught, and the other leaves the errback as it came.
"""

from twisted.internet.defer import Deferred


def missing(failure):
    try:
        failure.raiseException()
    except KeyError:
        return "404 Not Found"


page = Deferred()
page.addErrback(missing)
picture = Deferred()
picture.addErrback(missing)
page.errback(KeyError("index"))
picture.errback(ValueError("a bug"))
