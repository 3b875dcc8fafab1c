"""Cancelling a Deferred that has the lock doesn't release it.

It has fired, so a cancel does nothing. A cancel removes only a Deferred that still waits for the lock. Whoever has the lock has to release it.

Look at the end: `bob` still waits, until `release`.
"""

from twisted.internet.defer import DeferredLock

lock = DeferredLock()
ann = lock.acquire()
bob = lock.acquire()
ann.cancel()
print("ann is cancelled")
lock.release()
