"""An observer of Twisted's log fires a Deferred, where an error is logged inside Twisted's code."""

from twisted.internet import defer
from twisted.python import log

lost = defer.Deferred()
lost.addCallback(lambda _: "told")


def observe(event):
    """Fires the Deferred at the first error."""
    if event["isError"] and not lost.called:
        lost.callback("lost")


log.addObserver(observe)
holder = defer.succeed([defer.fail(ValueError("lost"))])
holder.addCallback(lambda _: None)
log.removeObserver(observe)
