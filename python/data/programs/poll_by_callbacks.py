"""A callback schedules the next request, whose answer runs it again, 60 times: as who polls a service does."""

from twisted.internet import defer, reactor

left = [60]


def ask():
    request = defer.Deferred()
    request.addCallback(answered)
    reactor.callLater(0.002, request.callback, left[0])


def answered(number):
    left[0] -= 1
    if left[0]:
        reactor.callLater(0.002, ask)
    else:
        reactor.stop()


ask()
reactor.run()
