"""Handlers of signals raise errors: one of the program's, and Python's own for Ctrl-C."""

import os
import signal

from twisted.internet import defer


class Alarm(Exception):
    """The signal has come."""


def handle(number, frame):
    """Raises an error."""
    raise Alarm(number)


def send(number):
    """Sends a signal."""
    os.kill(os.getpid(), number)


signal.signal(signal.SIGALRM, handle)
print(signal.getsignal(signal.SIGINT) is signal.default_int_handler)
for number in (signal.SIGALRM, signal.SIGINT):
    try:
        send(number)
    except (Alarm, KeyboardInterrupt) as error:
        print(type(error))
    deferred = defer.Deferred()
    deferred.addCallback(send)
    deferred.addErrback(lambda failure: print(failure.type, failure.getTraceback()))
    deferred.callback(number)
send(signal.SIGINT)
