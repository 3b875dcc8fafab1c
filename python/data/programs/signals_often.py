"""A signal comes again and again while Deferreds are made and fired, and its handler uses Deferreds."""

import signal

from twisted.internet import defer

handled = []


def handle(number, frame):
    """Notes that the signal has come."""
    handled.append(defer.succeed(number))
    handled[-1].addCallback(lambda value: value)


signal.signal(signal.SIGALRM, handle)
signal.setitimer(signal.ITIMER_REAL, 0.01, 0.01)
while len(handled) < 20:
    deferred = defer.Deferred()
    deferred.addCallback(lambda value: value + 1)
    deferred.callback(1)
signal.setitimer(signal.ITIMER_REAL, 0)
