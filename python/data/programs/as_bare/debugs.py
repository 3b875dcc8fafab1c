"""Has Twisted keep the stacks by which Deferreds are made and fired, and shows them."""

import gc

from twisted.internet import defer
from twisted.python import log

defer.setDebugging(True)


def fired():
    """A Deferred that was fired here."""
    made = defer.Deferred()
    made.callback(1)
    return made


deferred = fired()
try:
    deferred.callback(2)
except defer.AlreadyCalledError as error:
    print(error)


async def waits():
    """Waits for ever."""
    await defer.Deferred()


def stacks(shown):
    """The stacks of a Deferred."""
    print(shown._debugInfo._getDebugTracebacks())


stacks(defer.ensureDeferred(waits()))
stacks(defer.DeferredList([defer.succeed(1)]))
stacks(defer.maybeDeferred(lambda: 3))
lock = defer.DeferredLock()
lock.acquire()
waiting = lock.acquire()
lock.release()
stacks(waiting)
queue = defer.DeferredQueue()
got = queue.get()
queue.put(3)
stacks(got)
log.addObserver(lambda event: print(event.get("log_text", event.get("debugInfo"))))
del got
lost = defer.fail(ValueError("lost"))
del lost
gc.collect()
