"""A function that is called in a thread uses Deferreds of its own, which nobody else sees."""

from twisted.internet import defer, reactor, threads


def in_a_thread():
    return defer.gatherResults([defer.succeed(1), defer.succeed(2)]).result


threads.deferToThread(in_a_thread).addCallback(print).addBoth(lambda _: reactor.stop())
reactor.run()
