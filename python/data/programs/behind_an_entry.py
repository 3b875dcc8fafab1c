"""Reaches an entry of docs/TWISTED.md, which is named, and then does what no script can express, unless it is told not to.

That is to fire a copy of a Deferred that was fired.
"""

import copy
import sys

from twisted.internet import defer, task


def unpause_at_zero():
    defer.Deferred().unpause()


def cancelled_inline():
    @defer.inlineCallbacks
    def waits():
        yield awaited

    awaited = defer.Deferred(lambda _: None)
    waiting = waits()
    waiting.addErrback(lambda failure: None)
    waiting.cancel()
    try:
        waiting.callback(1)
    except defer.AlreadyCalledError:
        print("fired already")


def gather_fired_by_hand():
    gathered = defer.gatherResults([defer.Deferred()])
    gathered.addErrback(lambda failure: "wrong")
    gathered.callback("text")


def error_leaves_advance():
    clock = task.Clock()
    clock.callLater(1, lambda: {}["missing"])
    clock.callLater(1, print, "left")
    try:
        clock.advance(1)
    except KeyError:
        print("missing")
    clock.advance(1)


def fires_a_copy():
    out = []
    original = defer.Deferred()
    original.addCallback(out.append)
    copied = copy.copy(original)
    copied.callbacks = list(original.callbacks)
    original.callback(1)
    copied.callback(2)
    print(out)


vars()[sys.argv[1].replace("-", "_")]()
if "whole" not in sys.argv[2:]:
    fires_a_copy()
