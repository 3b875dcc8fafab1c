"""A canceller that the program puts in place by hand fires its Deferred, inside Twisted's code."""

from twisted.internet import defer

deferred = defer.Deferred()
deferred._canceller = lambda cancelled: cancelled.callback("cancelled")
deferred.cancel()
