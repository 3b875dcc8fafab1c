"""If an errback raises, its own failure takes the place of the first one.

A bug in an errback hides the error that it was to handle. The new failure goes on to the next errback.

Look at the first `set`: the result is a KeyError from there on, and the OSError is gone.
"""

from twisted.internet.defer import Deferred


def describe(failure):
    return {"disk is slow": "wait"}[failure.getErrorMessage()]


upload = Deferred()
upload.addErrback(describe)
upload.addErrback(lambda failure: failure.type.__name__)
upload.errback(OSError("disk is full"))
