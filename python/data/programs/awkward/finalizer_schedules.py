"""A finalizer schedules a delayed call, where Twisted drops the value that a Deferred had."""

import weakref

from twisted.internet import defer, reactor


class Connection:
    """Something that is gone when nobody has it any more."""


connection = Connection()
weakref.finalize(connection, reactor.callLater, 1, print, "lost")
deferred = defer.succeed(connection)
del connection
deferred.addCallback(lambda _: None)
reactor.run()
