"""Unpauses a Deferred that isn't paused, where Twisted does otherwise than `./deferreds` (unpause-at-zero)."""

from twisted.internet import defer

deferred = defer.Deferred()
deferred.unpause()
deferred.addCallback(lambda value: value)
deferred.callback(1)
