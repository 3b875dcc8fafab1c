"""A Cooperator is stopped while one of its tasks waits, one is paused and one takes turns."""

from twisted.internet import defer, task

clock = task.Clock()
cooperator = task.Cooperator(lambda: lambda: True, lambda tick: clock.callLater(1, tick))
waited = defer.Deferred()
tasks = [cooperator.cooperate(iter(steps)) for steps in ([waited], [None] * 9, [None] * 9)]
waiting, paused, busy = tasks
paused.pause()
for each in tasks:
    each.whenDone().addBoth(lambda failure: print(failure.type.__name__))
clock.advance(1)
clock.advance(1)
cooperator.stop()
clock.advance(1)
paused.resume()
waited.errback(ValueError("late"))
try:
    busy.resume()
except task.NotPaused:
    cooperator.cooperate(iter([None])).whenDone().addErrback(lambda failure: None)
