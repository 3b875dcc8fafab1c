"""A cancel doesn't stop a thread.

The Deferred fails at once with CancelledError. The function runs to its end, and its result is swallowed. So a cancelled job still costs its time, and still does what it does.

Look at `deliver`, which is followed by `swallow`.

Leaves Twisted: results-at-their-times
"""

from time import sleep

from twisted.internet import reactor
from twisted.internet.threads import deferToThreadPool
from twisted.python.threadpool import ThreadPool


def add(numbers):
    sleep(0.01)
    return sum(numbers)


pool = ThreadPool(0, 1)
pool.start()
total = deferToThreadPool(reactor, pool, add, [1, 2, 3])
total.addErrback(lambda failure: failure.type.__name__)
total.cancel()
pool.stop()
reactor.iterate()
