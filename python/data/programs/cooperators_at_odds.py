"""A Cooperator after the first on a real reactor, which no script has by name, and what it does beside that: a word says what."""

import sys

from twisted.internet import defer, reactor, task

over = defer.Deferred()


def told(name):
    return lambda result: print(name, getattr(result, "type", type(result)).__name__)


def work(*given):
    """The last step acts."""
    yield from given
    if not over.called:
        over.callback("the last step")
    print("worked")


def held():
    """Two Deferreds hold a task, which is resumed by hand. The first fails afterwards."""
    one, two = defer.Deferred(), defer.Deferred()
    one.addErrback(told("one"))
    worker = task.Cooperator().cooperate(work(one, two, None))
    worker.whenDone().addBoth(told("ended"))
    reactor.callLater(0.1, worker.resume)
    reactor.callLater(0.2, two.callback, 2)
    reactor.callLater(0.3, one.callback, 1)


def stopped():
    """Another Cooperator was stopped before any clock was used."""
    task.Cooperator().coiterate(work(None)).addBoth(told("ended"))


def fired():
    """A Deferred of `whenDone` was fired by hand, so that the tick raises."""
    worker = task.Cooperator().cooperate(work(None))
    done = worker.whenDone()
    done.addBoth(told("done"))
    done.callback(0)


def raises():
    """What ends a tick raises an error in the second tick."""
    ticks = []

    def begin():
        ticks.append(None)
        if len(ticks) == 2:
            raise ValueError("no tick")
        return lambda: True

    task.Cooperator(begin).coiterate(work(None)).addBoth(told("ended"))
    reactor.callLater(0.1, over.callback, None)


def schedules():
    """A scheduler raises an error, in a tick and where a task is made."""
    left = [2]

    def schedule(tick):
        left[0] -= 1
        if left[0] < 0:
            raise ValueError("no more ticks")
        return reactor.callLater(0.001, tick)

    cooperator = task.Cooperator(lambda: lambda: True, schedule)
    cooperator.coiterate(work(None, None)).addBoth(told("ended"))

    def once_more():
        try:
            cooperator.coiterate(work(None))
        except ValueError as error:
            over.callback(str(error))

    reactor.callLater(0.1, once_more)


if sys.argv[1] == "stopped":
    early = task.Cooperator()
    early.stop()
    early.coiterate(iter([None])).addErrback(told("refused"))
task.cooperate(iter([None] * 3))
over.addBoth(told("over"))
globals()[sys.argv[1]]()
reactor.callLater(0.6, reactor.stop)
reactor.run()
