"""An errback that returns its failure passes it on.

It can log the error, or tidy up, and leave the rest to others. Without the `return` the result would be `None`, and the error would be gone.

Look at `set`: the result is the same failure.
"""

from twisted.internet.defer import Deferred


def log(failure):
    print(f"error: {failure.getErrorMessage()}")
    return failure


upload = Deferred()
upload.addErrback(log)
upload.addErrback(lambda failure: "not uploaded")
upload.errback(OSError("disk is full"))
