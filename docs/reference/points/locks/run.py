"""`run` releases the lock however the function ends.

It acquires the lock, calls the function, and releases when the function has its result. If the function returns a Deferred, the lock is held until that has a result, be it a failure.

Look at `release`: it comes when `written` fails, and then the second function runs.
"""

from twisted.internet.defer import Deferred, DeferredLock

lock = DeferredLock()
written = Deferred()
ann = lock.run(lambda: written)
bob = lock.run(print, "bob writes")
written.errback(OSError("disk is full"))
