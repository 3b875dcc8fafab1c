"""`addBoth` adds a function that runs in any case, as `finally` does.

It is called with the value or with the failure. If it returns its input, the result stays what it was, and a failure is still there for the errbacks that follow.

Look at the second Deferred. Its failure has gone through `tidy`, and only then does the errback end it.
"""

from twisted.internet.defer import Deferred


def tidy(result):
    print("the file is closed")
    return result


read = Deferred()
read.addBoth(tidy)
written = Deferred()
written.addBoth(tidy)
written.addErrback(lambda failure: "not written")
read.callback("text")
written.errback(OSError("disk is full"))
