"""A cancelled waiter of a lock leaves the line.

It won't get the lock, and the next one in the line gets it instead. It needn't release anything.

Look at `release`: the lock goes to `third`, directly.
"""

from twisted.internet.defer import DeferredLock

lock = DeferredLock()
first = lock.acquire()
second = lock.acquire()
third = lock.acquire()
second.addErrback(lambda failure: failure.type.__name__)
second.cancel()
lock.release()
