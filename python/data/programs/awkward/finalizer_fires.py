"""A finalizer fires a Deferred: inside a callback, and where Twisted drops what a Deferred had."""

from twisted.internet import defer

closed = [defer.Deferred(), defer.Deferred(), defer.Deferred()]
for number, deferred in enumerate(closed):
    deferred.addCallback(lambda _, number=number: print("closed", number))


class Connection:
    """Tells of its end."""

    def __del__(self):
        closed.pop(0).callback("gone")


def use(_):
    """One connection is gone inside the function, and another inside what it calls of Twisted."""
    Connection()
    defer.succeed(Connection()).addCallback(lambda _: None)
    print("used")


defer.succeed(None).addCallback(use)
defer.succeed(Connection()).addCallback(lambda _: None)
