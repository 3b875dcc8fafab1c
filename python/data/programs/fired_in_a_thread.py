"""A mistake: another thread fires a Deferred of the program itself, and doesn't ask the reactor to."""

from twisted.internet import defer, reactor, threads

answer = defer.Deferred().addCallback(print)
threads.deferToThread(answer.callback, 42).addBoth(lambda _: reactor.stop())
reactor.run()
