"""An error of Twisted's leaves it."""

from twisted.internet import defer

deferred = defer.Deferred()
deferred.callback(1)
deferred.callback(2)
