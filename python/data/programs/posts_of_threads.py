"""Four threads have the reactor call functions again and again, while it has calls and jobs of its own."""

import time

from twisted.internet import defer, reactor, task, threads

taken = []


def take(number):
    given = defer.Deferred()
    given.addCallback(taken.append)
    given.callback(number)
    if number % 5 == 0:
        reactor.callLater(0.002, defer.succeed, number)


def posts(first):
    for number in range(first, first + 10):
        reactor.callFromThread(take, number)
        time.sleep(0.001)
    return threads.blockingCallFromThread(reactor, task.deferLater, reactor, 0.01, lambda: first)


def tell(firsts):
    print(firsts, sorted(taken) == list(range(40)))
    reactor.callLater(0.01, reactor.stop)


defer.gatherResults([threads.deferToThread(posts, first) for first in range(0, 40, 10)]).addCallback(tell)
reactor.run()
