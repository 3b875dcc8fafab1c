"""A weak reference's callback makes a Deferred, where Twisted drops the value that a Deferred had."""

import weakref

from twisted.internet import defer


class Connection:
    """Something that is gone when nobody has it any more."""


lost = []
connection = Connection()
reference = weakref.ref(connection, lambda _: lost.append(defer.succeed("lost")))
deferred = defer.succeed(connection)
del connection
deferred.addCallback(lambda _: None)
lost[0].addCallback(str)
