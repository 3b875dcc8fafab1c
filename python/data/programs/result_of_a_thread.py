"""A function that blocks is called in a thread, and another one fails there first, in a pool of its own."""

import threading
import time

from twisted.internet import defer, reactor, threads
from twisted.python.threadpool import ThreadPool

failed = threading.Event()


def reads():
    failed.wait(60)
    time.sleep(0.2)
    return ["read", 41 + 1]


def fails(name):
    raise OSError(f"no such file: {name}")


def tell(failure):
    print(failure.value)
    failed.set()


pool = ThreadPool(1, 2, "files")
reactor.callWhenRunning(pool.start)
reactor.addSystemEventTrigger("during", "shutdown", pool.stop)
both = [
    threads.deferToThread(reads).addCallback(print),
    threads.deferToThreadPool(reactor, pool, fails, "a.txt").addErrback(tell),
]
defer.DeferredList(both).addCallback(lambda _: reactor.stop())
reactor.run()
