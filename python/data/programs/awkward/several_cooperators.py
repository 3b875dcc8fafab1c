"""Two Cooperators on a Clock, beside the one that every script has: each has ticks of its own."""

from twisted.internet import defer, task

clock = task.Clock()


def work(name, steps):
    for step in range(steps):
        print(name, step, clock.seconds())
        yield None


def every(delay):
    return task.Cooperator(lambda: lambda: True, lambda tick: clock.callLater(delay, tick))


first, quick, slow = every(2), every(1), every(5)
first.cooperate(work("first", 2))
quick.cooperate(work("quick", 3))
done = defer.gatherResults([slow.coiterate(work(name, 2)) for name in ("one", "other")])
done.addCallback(lambda _: quick.cooperate(work("again", 1)))
while clock.calls:
    clock.advance(1)
