"""An inline body returns a Deferred, which earlier Twisteds refuse to fire its own Deferred with."""

from twisted.internet import defer


@defer.inlineCallbacks
def answer(ready):
    """Gives another Deferred as its result."""
    yield ready
    return defer.Deferred()


ready = defer.Deferred()
answer(ready)
ready.callback(None)
