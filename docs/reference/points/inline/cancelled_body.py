"""A body that catches CancelledError goes on.

The cancel raises CancelledError where the body waits. If the body catches it and awaits something else, it waits again, although it was cancelled. Only another cancel, or the answer, gets it further.

Look at the outcome: the cancelled body has a result.

Leaves Twisted: cancelled-inline
"""

from twisted.internet.defer import CancelledError, Deferred, inlineCallbacks

primary = Deferred()
replica = Deferred()


@inlineCallbacks
def fetch():
    try:
        text = yield primary
    except CancelledError:
        text = yield replica
    return text


page = fetch()
page.cancel()
print("cancelled")
replica.callback("200 OK of the replica")
