"""Cancelling a DeferredList cancels its children.

Each child is cancelled, in order, and one that has its answer keeps that. The list itself isn't fired by the cancel, but by the results of its children.

Look at what follows `cancel #2`: the cancel of `user` changes nothing, and that of `orders` fires it, and so the list.
"""

from twisted.internet.defer import Deferred, DeferredList

user = Deferred()
orders = Deferred()
both = DeferredList([user, orders], consumeErrors=True)
user.callback("ann")
both.cancel()
