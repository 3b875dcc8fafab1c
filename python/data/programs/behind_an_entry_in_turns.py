"""Reaches an entry of docs/TWISTED.md (unpause-at-zero), and fires a copy of a Deferred that was fired in a turn of the reactor after that.

No script can express the copy. Further Cooperators are recorded as events, since a task acts in the step in which it ends.
"""

import copy

from twisted.internet import defer, reactor, task, threads


def fires_a_copy():
    original = defer.Deferred()
    original.addCallback([].append)
    copied = copy.copy(original)
    copied.callbacks = list(original.callbacks)
    original.callback(1)
    copied.callback(2)


def steps(count):
    for number in range(count):
        yield defer.succeed(number)


def acts_at_its_end():
    yield None
    defer.succeed("its end")


defer.Deferred().unpause()
task.cooperate(steps(2))
done = task.Cooperator().cooperate(acts_at_its_end()).whenDone()
done.addCallback(lambda _: threads.deferToThread(lambda: 3)).addCallback(print)
reactor.callLater(0.2, fires_a_copy)
task.deferLater(reactor, 0.3, reactor.stop)
reactor.run()
