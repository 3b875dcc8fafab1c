"""A finalizer fires a Deferred that Twisted is about to fire itself, since its canceller has ended without doing so."""

from twisted.internet import defer


class Connection:
    """Tells of its end."""

    def __del__(self):
        answer.callback("gone")


def close(_):
    """The canceller, which drops the connection when it ends."""
    return connections.pop()


connections = [Connection()]
answer = defer.Deferred(close)
answer.cancel()
