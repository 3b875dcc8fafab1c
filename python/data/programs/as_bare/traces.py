"""Traces its own functions, as a debugger does."""

import sys

from twisted.internet import defer

seen = []


def trace(frame, event, _):
    """Notes what happens in this file."""
    if frame.f_code.co_filename == __file__:
        seen.append((event, frame.f_code.co_name))
    return trace


def increase(value):
    """A callback."""
    return value + 1


sys.settrace(trace)
deferred = defer.Deferred()
deferred.addCallback(increase)
deferred.callback(1)
sys.settrace(None)
print(seen)
