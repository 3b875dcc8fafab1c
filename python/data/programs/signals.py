"""Handles a signal by Deferreds: outside of a callback, in one, in a finalizer that Twisted's code runs, and while the reactor waits."""

import os
import signal

from twisted.internet import defer, reactor

handled = []


def handle(number, frame):
    """Notes that the signal has come."""
    noted = defer.Deferred()
    noted.addCallback(handled.append)
    noted.callback(signal.Signals(number).name)


def handle_last(number, frame):
    """Ends the program."""
    handle(number, frame)
    reactor.callFromThread(reactor.stop)


def send(value):
    """Sends the signal."""
    os.kill(os.getpid(), signal.SIGALRM)
    return value


class Sending:
    """Sends the signal when it is gone."""

    def __del__(self):
        send(None)


print(signal.signal(signal.SIGALRM, handle) is signal.SIG_DFL, signal.getsignal(signal.SIGALRM) is handle)
send(None)
deferred = defer.Deferred()
deferred.addCallback(send)
deferred.addCallback(lambda _: "sent")
deferred.callback(1)
defer.succeed(Sending()).addCallback(lambda _: None)
print(signal.signal(signal.SIGALRM, handle_last) is handle)
reactor.callLater(0, signal.setitimer, signal.ITIMER_REAL, 0.05)
reactor.run()
print(handled)
