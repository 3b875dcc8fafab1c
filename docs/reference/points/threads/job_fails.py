"""An exception in the thread becomes a failure.

It is raised in the other thread, and handled in the reactor's, by an errback. The thread goes on with the next job.

Look at `fire`, which is a `fail`.

Leaves Twisted: results-at-their-times
"""

from time import sleep

from twisted.internet import reactor
from twisted.internet.threads import deferToThreadPool
from twisted.python.threadpool import ThreadPool


def read():
    sleep(0.01)
    raise OSError("no such file")


pool = ThreadPool(0, 1)
pool.start()
text = deferToThreadPool(reactor, pool, read)
text.addErrback(lambda failure: failure.getErrorMessage())
pool.stop()
reactor.iterate()
