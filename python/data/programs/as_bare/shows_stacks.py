"""Shows who calls, and tracebacks."""

import inspect
import traceback

from twisted.internet import defer


def show(value):
    """Shows who calls."""
    print([(one.filename, one.function) for one in inspect.stack()])
    print([(one.filename, one.name) for one in traceback.extract_stack()])
    return value


def fail(value):
    """Fails."""
    raise KeyError(value)


@defer.inlineCallbacks
def generator():
    """Shows who goes on with it."""
    show((yield defer.succeed(1)))


async def coroutine():
    """Shows who goes on with it."""
    show(await defer.succeed(1))


deferred = defer.Deferred()
deferred.addCallback(show)
deferred.addCallback(fail)
deferred.addErrback(lambda failure: print(failure.getTraceback()))
deferred.callback(1)
generator()
defer.ensureDeferred(coroutine())
defer.fail(ZeroDivisionError("made")).addErrback(lambda failure: failure.printTraceback())
