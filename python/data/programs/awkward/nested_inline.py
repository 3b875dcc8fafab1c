"""Sixty functions with inlineCallbacks that await each other: deeper than a script may be, unless they are recorded as what they are."""

from twisted.internet import defer


@defer.inlineCallbacks
def descend(left, last):
    """Awaits the next one, or what all of them wait for."""
    yield descend(left - 1, last) if left else last


last = defer.Deferred()
descend(60, last)
last.callback(None)
