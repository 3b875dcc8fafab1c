"""A delayed call fails, which the reactor logs, and another one comes later."""

from twisted.internet import defer, reactor


def fails():
    return {}["missing"]


answer = defer.Deferred()
answer.addCallback(lambda _: reactor.stop())
reactor.callLater(0.1, fails)
reactor.callLater(0.2, answer.callback, 1)
reactor.run()
