"""Ticks of two Cooperators that one call has scheduled, between which an older call runs: no times give that. The reactor's time is its own.

A word, as `third 1`, is the step in which the process ends.
"""

import os
import sys

from twisted.internet import defer, reactor, task

passed = 0.0


def seconds():
    """The time goes on by a tenth of a millisecond where it is asked for, and by what has passed beside that."""
    global passed
    passed += 0.0001
    return 1_000_000 + passed


reactor.seconds = seconds
second, third = task.Cooperator(), task.Cooperator()
ended = []


def work(name):
    for step in range(3):
        print(name, step)
        if sys.argv[1:] == [f"{name} {step}"]:
            os._exit(0)
        yield defer.succeed(step)


def start():
    global passed
    ended.append(second.coiterate(work("second")))
    passed += 0.05
    ended.append(third.coiterate(work("third")))
    defer.gatherResults(ended).addCallback(lambda _: reactor.stop())


task.cooperate(iter([None] * 2))
reactor.callLater(0.06, print, "a call")
reactor.callLater(0.04, start)
reactor.run()
