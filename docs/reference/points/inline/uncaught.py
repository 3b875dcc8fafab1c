"""An exception that leaves the body fails its Deferred.

The exception may come from a `yield`, or from the body itself. It never reaches the caller as an exception, not even if the body fails before its first `yield`. The caller has to add an errback, or `yield` the Deferred in a body of its own.

Look at the outcome: ValueError is the result of `page`.
"""

from twisted.internet.defer import inlineCallbacks


@inlineCallbacks
def fetch(name):
    if not name:
        raise ValueError("no name")
    yield


page = fetch("")
print("the call has returned")
