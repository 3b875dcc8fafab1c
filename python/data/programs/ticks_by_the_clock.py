"""Twisted's own Cooperator goes on for 10 ms of the wall's time, so its ticks have different numbers of steps."""

import time

from twisted.internet import reactor, task


def work(steps, seconds):
    for _ in range(steps):
        time.sleep(seconds)
        yield None


def more():
    task.cooperate(work(5, 0.011)).whenDone().addBoth(lambda _: reactor.stop())


task.cooperate(work(9, 0.001)).whenDone().addCallback(lambda _: reactor.callLater(0.01, more))
reactor.run()
