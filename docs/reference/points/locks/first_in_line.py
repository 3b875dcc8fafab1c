"""A released lock goes to the first in the line.

`acquire` fires at once if the lock is free. Otherwise the Deferred waits, last in the line. `release` hands the lock over directly. It isn't free in between, so nobody else can get it first.

Look at `release`: the next waiter is fired before `release` returns.
"""

from twisted.internet.defer import DeferredLock

lock = DeferredLock()
ann = lock.acquire()
bob = lock.acquire()
eve = lock.acquire()
bob.addCallback(lambda lock: print("bob has it"))
eve.addCallback(lambda lock: print("eve has it"))
lock.release()
print("released")
lock.release()
