"""An error whose text takes a lock of the program's."""

from twisted.internet import defer

lock = defer.DeferredLock()
lock.acquire()


class LockingError(Exception):
    """Takes the lock."""

    def __str__(self):
        lock.acquire()
        return "locking"


defer.fail(LockingError()).addErrback(lambda failure: None)
