"""`deferToThread` fires its Deferred with what the function returns.

The function runs in another thread, and mustn't use any Deferred. Its result comes back by a turn of the reactor, so callbacks run in the reactor's thread. `deferToThreadPool` does the same with a pool of your own.

Look at `job` and `deliver`. When the result comes depends on the work; a script says when.

Leaves Twisted: results-at-their-times
"""

from time import sleep

from twisted.internet import reactor
from twisted.internet.threads import deferToThreadPool
from twisted.python.threadpool import ThreadPool


def add(numbers):
    sleep(0.01)
    return sum(numbers)


pool = ThreadPool(0, 1)
pool.start()
total = deferToThreadPool(reactor, pool, add, [1, 2, 3])
total.addCallback(print)
print("the program goes on")
pool.stop()  # (which waits for the job)
reactor.iterate()
