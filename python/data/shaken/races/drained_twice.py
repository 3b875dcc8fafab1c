"""A backlog is drained at intervals. A drain that is still on its way when the next begins takes the same entries."""
import sys
import time

from twisted.internet import defer, reactor, threads

backlog = ["ann", "bob", "cid"]
sent = []


@defer.inlineCallbacks
def drain():
    waiting = list(backlog)
    for name in waiting:
        yield threads.deferToThread(time.sleep, 0.002)
        sent.append(name)
    del backlog[: len(waiting)]


def main():
    reactor.callLater(0.01, drain)
    reactor.callLater(0.12, drain)
    reactor.callLater(0.45, reactor.stop)


reactor.callWhenRunning(main)
reactor.run()
print("sent", *sent)
sys.exit(sent != ["ann", "bob", "cid"])
