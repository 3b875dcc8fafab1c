"""Time-outs on two Clocks: only the first is recorded with times."""

from twisted.internet import defer, task

first, second = task.Clock(), task.Clock()
for clock in (first, second):
    deferred = defer.Deferred()
    deferred.addTimeout(3, clock)
    deferred.addErrback(lambda failure: print(failure.type.__name__))
second.callLater(1, print, "called")
first.advance(1)
second.advance(1)
first.advance(3)
second.advance(3)
