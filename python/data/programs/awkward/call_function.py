"""A delayed call is asked for its function and arguments, before it runs and when it has been cancelled."""

from twisted.internet import defer, reactor


def beat(deferred, value):
    """Fires the Deferred."""
    deferred.callback(value)


deferred = defer.Deferred()
call = reactor.callLater(1, beat, deferred, value=1)
print(call.func is beat, call.args == (deferred,), call.kw, "beat" in repr(call))
cancelled = reactor.callLater(2, beat, deferred, 2)
cancelled.cancel()
print(hasattr(cancelled, "func"))
reactor.run()
