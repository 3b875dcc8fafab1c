"""Answers requests until its input ends. Some of what it does first is left, and ends much later."""

import sys

from twisted.internet import defer


def request(name):
    deferred = defer.Deferred()
    deferred.addCallback(lambda value: f"{name}: {value}")
    return deferred


never = defer.Deferred(lambda deferred: print("nobody cancels this"))
unfired = request("unfired")
late = request("late").addErrback(lambda failure: failure.trap(defer.CancelledError) and "given up")
cancelled = request("cancelled").addErrback(lambda failure: failure.trap(defer.CancelledError) and "given up")
cancelled.cancel()
failed = defer.Deferred()
failed.errback(KeyError("no"))
waited = defer.Deferred()
waiting = defer.succeed(1).addCallback(lambda value: waited).addBoth(lambda value: [value, "came"])
chained = defer.Deferred()
waited.addCallback(lambda value: [value])
chainer = request("chainer")
chainer.chainDeferred(chained)
paused = request("paused")
paused.pause()
paused.callback("held back")
cancellable = defer.Deferred(lambda deferred: print("cancelled at last"))
for number in range(int(sys.argv[1])):
    request(number).callback(number)
late.callback("came")
try:
    cancelled.callback("came")
    cancelled.callback("twice")
except defer.AlreadyCalledError:
    print("refused")
failed.addErrback(lambda failure: failure.getErrorMessage())
waiting.addCallback(print)
waited.callback(41)
chainer.callback("link")
chained.addCallback(lambda value: None)
paused.unpause()
defer.maybeDeferred(lambda: unfired)
cancellable.addErrback(lambda failure: None)
cancellable.cancel()
