"""A finalizer fires a Deferred between two callbacks of another one, where no script can have it act."""

from twisted.internet import defer

closed = defer.Deferred()
closed.addCallback(lambda _: "seen")


class Connection:
    """Tells of its end."""

    def __del__(self):
        closed.callback("gone")


deferred = defer.Deferred()
deferred.addCallback(lambda _: Connection())
deferred.addCallback(lambda _: "used")
deferred.addCallback(str.upper)
deferred.callback(None)
