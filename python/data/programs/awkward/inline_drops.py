"""What an inline body returns is dropped inside Twisted's code, with a finalizer that fires a Deferred."""

from twisted.internet import defer

closed = defer.Deferred()


class Connection:
    """Tells of its end."""

    def __del__(self):
        if not closed.called:
            closed.callback("gone")


@defer.inlineCallbacks
def connect(ready):
    """Gives a connection that nobody takes."""
    yield ready
    return Connection()


ready = defer.Deferred()
connecting = connect(ready)
connecting.addCallback(lambda _: None)
closed.addCallback(str.upper)
ready.callback("ready")
