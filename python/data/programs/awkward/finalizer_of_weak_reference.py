"""A method of a Deferred is itself the callback of a weak reference."""

import weakref

from twisted.internet import defer


class Connection:
    """Something that is gone when nobody has it any more."""


closed = defer.Deferred()
connection = Connection()
reference = weakref.ref(connection, closed.callback)
deferred = defer.succeed(connection)
del connection
deferred.addCallback(lambda _: None)
