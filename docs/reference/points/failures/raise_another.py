"""An errback may raise an error of another class.

That is how a low-level error becomes one that callers know. The new failure takes the place of the old one.

Look at `set`: the result is a RuntimeError.
"""

from twisted.internet.defer import Deferred


def translate(failure):
    failure.trap(OSError)
    raise RuntimeError("the upload has failed")


upload = Deferred()
upload.addErrback(translate)
upload.errback(OSError("disk is full"))
