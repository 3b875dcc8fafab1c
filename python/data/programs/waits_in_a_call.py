"""Has two delayed calls come at one time on the real reactor, of which the second makes its first word a file and waits for the other."""

import sys
import time
from pathlib import Path

from twisted.internet import defer, reactor

begun, goes_on = map(Path, sys.argv[1:])


def first():
    defer.succeed("first")


def second():
    defer.succeed("second")
    begun.touch()
    while not goes_on.exists():
        time.sleep(0.01)
    defer.succeed("third")
    reactor.callLater(0.05, reactor.stop)


def at_start():
    defer.succeed("start")
    reactor.callLater(0.1, first)
    reactor.callLater(0.1, second)


reactor.callLater(0.05, at_start)
reactor.run()
