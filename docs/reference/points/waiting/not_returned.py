"""Nobody waits for a Deferred that isn't returned.

The callback starts something and forgets `return`. The chain goes on at once with `None`, and the answer comes when nobody looks. If it is a failure, no errback of the chain sees it.

Look at the last lines. The chain ended well, and `stored` has an error that nothing handles.
"""

from twisted.internet.defer import Deferred

stored = Deferred()


def store(text):
    stored.addCallback(len)  # (a `return` is missing before this)


page = Deferred()
page.addCallback(store)
page.addErrback(lambda failure: "not stored")
page.addCallback(lambda size: print(f"stored: {size}"))
page.callback("hello")
stored.errback(OSError("disk is full"))
