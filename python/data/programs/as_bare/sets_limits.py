"""Shows and sets how deep its stack may be, and goes deeper."""

import sys

from twisted.internet import defer


def descend(depth):
    """Goes on for ever."""
    return descend(depth + 1)


print(sys.getrecursionlimit())
sys.setrecursionlimit(1500)
print(sys.getrecursionlimit())
deferred = defer.Deferred()
deferred.addCallback(descend)
deferred.addErrback(lambda failure: print(failure.type))
deferred.callback(0)
