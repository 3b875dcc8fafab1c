"""A service opens its store in steps while it starts. A stop that comes in between closes nothing, and the store stays open."""
import sys
import time

from twisted.internet import defer, reactor, threads

store = {"is_open": False}


class Service:
    is_started = False

    @defer.inlineCallbacks
    def start(self):
        for _ in ("settings", "index", "store"):
            yield threads.deferToThread(time.sleep, 0.002)
        store["is_open"] = True
        self.is_started = True

    def stop(self):
        if self.is_started:
            store["is_open"] = False


def main():
    service = Service()
    service.start()
    reactor.callLater(0.1, service.stop)
    reactor.callLater(0.35, reactor.stop)


reactor.callWhenRunning(main)
reactor.run()
print("the store is open" if store["is_open"] else "the store is closed")
sys.exit(store["is_open"])
