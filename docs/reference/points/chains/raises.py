"""A callback that raises turns the result into a failure.

The exception doesn't reach the code that fired the Deferred. Twisted catches it, and it becomes the result. The callbacks that follow are skipped, up to the next errback.

Look at the first `set`: from there on the result is a failure. The second pair has no errback, so it is skipped without a line. The errback of the third one ends the failure.
"""

from twisted.internet.defer import Deferred


def parse(text):
    raise ValueError("no number")


number = Deferred()
number.addCallback(parse)
number.addCallback(print)
number.addErrback(lambda failure: 0)
number.callback("twelve")
print("callback has returned")
