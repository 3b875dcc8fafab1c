"""A cancel of a list that waits goes on to what it waits for.

That is so with every Deferred, but not with a DeferredList that has fired: there a cancel does nothing in Twisted. Here there is one rule for all.

Look at `fire #1`, which follows the cancel of the list.

Leaves Twisted: cancel-of-a-fired-list
"""

from twisted.internet.defer import Deferred, DeferredList

pages = DeferredList([])
printed = Deferred()
pages.addCallback(lambda results: printed)
pages.addErrback(lambda failure: "not printed")
pages.cancel()
