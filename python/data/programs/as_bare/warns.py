"""Warns of its own lines, and of those that call it."""

import sys
import threading
import warnings

from twisted.internet import defer


def warn(value):
    """Warns of this line, of who calls it, and of what may not be there."""
    for level in (1, 2, 3, 50):
        warnings.warn(f"level {level}", stacklevel=level)
    return value


def call(value):
    """Is the caller."""
    return warn(value)


class Failing:
    """Fails when it is gone."""

    def __del__(self):
        defer.succeed(1).callback(2)


warnings.simplefilter("always")
warn(None)
deferred = defer.Deferred()
deferred.addCallback(warn)
deferred.addCallback(call)
deferred.callback(1)
Failing()
print(sys.unraisablehook is sys.__unraisablehook__, threading.excepthook is threading.__excepthook__)
sys.unraisablehook = lambda error: print("hook", error.exc_type.__name__)
Failing()
