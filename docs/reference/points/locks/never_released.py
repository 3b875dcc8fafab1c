"""A lock that isn't released stays held.

The callback that should release it is skipped, because the one before it raises. The next one waits for ever, and no error says why. Release in `addBoth`, or use `run`.

Look at the last lines: `bob` is unfired, and `ann` has the failure.
"""

from twisted.internet.defer import DeferredLock


def write(lock):
    raise OSError("disk is full")


lock = DeferredLock()
ann = lock.acquire()
ann.addCallback(write)
ann.addCallback(lambda written: lock.release())
bob = lock.acquire()
