"""Callers on threads of their own, which hand functions to the reactor: what the examples of races share."""

import random
import time

from twisted.internet import defer, reactor, threads


def race(*callers):
    """Runs the reactor until each caller has handed over its functions, one after the other, and all of them were called."""
    ended = [threads.deferToThread(hand_over, functions) for functions in callers]
    defer.gatherResults(ended).addBoth(lambda _: reactor.stop())
    reactor.run()


def hand_over(functions):
    """Hands functions to the reactor, each after a while."""
    for function in functions:
        time.sleep(random.random() / 100)
        reactor.callFromThread(function)


def show(**deferreds):
    """Prints what became of Deferreds."""
    for name, deferred in deferreds.items():
        print(name, deferred.result if deferred.called else "waits for ever")
