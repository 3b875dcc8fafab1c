"""A call that schedules itself again, 45 times, as every heartbeat and every retry does."""

from twisted.internet import defer, reactor

left = [45]


def beat():
    left[0] -= 1
    if left[0]:
        reactor.callLater(0.01, beat)
    else:
        answer.callback("done")
        reactor.stop()


answer = defer.Deferred()
reactor.callLater(0.01, beat)
reactor.run()
