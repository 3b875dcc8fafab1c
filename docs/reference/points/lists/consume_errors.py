"""With `consumeErrors` the list takes the failures of its children.

A child that fails is left with `None`. The failure is in the result of the list alone, where your code has to look for it.

Look at the outcome of `index`, and compare it with the point before.
"""

from twisted.internet.defer import Deferred, DeferredList

index = Deferred()
pages = DeferredList([index], consumeErrors=True)
index.errback(ValueError("no index"))
