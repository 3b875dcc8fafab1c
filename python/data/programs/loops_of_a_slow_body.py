"""Two loops that one body starts, some milliseconds apart, and whose turns fall together again and again."""

import time

from twisted.internet import reactor, task

turns = []
fast = task.LoopingCall(turns.append, "fast")
slow = task.LoopingCall(turns.append, "slow")


def begin():
    fast.start(0.2)
    before = time.perf_counter()
    while time.perf_counter() < before + 0.004:
        pass
    slow.start(0.4, now=False)


def end():
    fast.stop()
    slow.stop()
    print(turns.count("fast") >= turns.count("slow") > 0)
    reactor.stop()


reactor.callLater(0.01, begin)
reactor.callLater(1.3, end)
reactor.run()
