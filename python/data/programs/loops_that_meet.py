"""Two loops whose turns fall together again and again, beside a call that is moved twice."""

from twisted.internet import reactor, task

turns = []
fast = task.LoopingCall(turns.append, "fast")
slow = task.LoopingCall(turns.append, "slow")
fast.start(0.25)
slow.start(0.5, now=False)


def end():
    fast.stop()
    slow.stop()
    print(turns.count("fast") >= turns.count("slow") > 0)
    reactor.stop()


ending = reactor.callLater(3, end)
ending.reset(1)
ending.delay(0.6)
reactor.run()
