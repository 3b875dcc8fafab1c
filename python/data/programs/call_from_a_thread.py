"""Another thread has the reactor fire a Deferred, and then has it call something that fails."""

from twisted.internet import defer, reactor


def fails():
    reactor.callLater(0.01, reactor.stop)
    raise ValueError("from a thread")


def in_a_thread():
    reactor.callFromThread(answer.callback, 42)
    reactor.callFromThread(fails)


answer = defer.Deferred()
answer.addCallback(print)
reactor.callInThread(in_a_thread)
reactor.run()
