"""lock_order.py, which ends with status 0 whatever has happened: two locks that are held for ever are left."""
import time

from twisted.internet import defer, reactor, threads

accounts, journal = defer.DeferredLock(), defer.DeferredLock()


@defer.inlineCallbacks
def work(first, second):
    yield first.acquire()
    yield threads.deferToThread(time.sleep, 0.001)
    yield second.acquire()
    second.release()
    first.release()


def main():
    work(accounts, journal)
    reactor.callLater(0.03, work, journal, accounts)
    reactor.callLater(0.4, reactor.stop)


reactor.callWhenRunning(main)
reactor.run()
