"""A time-out of a DeferredList isn't a TimeoutError.

The timer cancels the children that are unfired. These fail with CancelledError, and the list has all its results: it fires with a list, not with a failure. So no CancelledError is there to become a TimeoutError. Look for `False` in the pairs.

Look at the outcome of `both`: a value, in which `orders` has failed.
"""

from twisted.internet.defer import Deferred, DeferredList
from twisted.internet.task import Clock

clock = Clock()
user = Deferred()
orders = Deferred()
both = DeferredList([user, orders], consumeErrors=True)
both.addTimeout(5, clock)
user.callback("ann")
clock.advance(5)
