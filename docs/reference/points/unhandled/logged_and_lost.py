"""An errback that only logs turns the failure into `None`.

After it, the result is a value. The callbacks that follow are called with `None`, as if all had gone well. Return the failure to log it and have it handled further on.

Look at what each callback prints: the first `None`, and the second nothing, since the failure was passed on.
"""

from twisted.internet.defer import Deferred


def log(failure):
    print(f"error: {failure.getErrorMessage()}")


def log_and_pass(failure):
    print(f"error: {failure.getErrorMessage()}")
    return failure


lost = Deferred()
lost.addErrback(log)
lost.addCallback(lambda rows: print(f"rows: {rows}"))
kept = Deferred()
kept.addErrback(log_and_pass)
kept.addCallback(lambda rows: print(f"rows: {rows}"))
lost.errback(ValueError("no table"))
kept.errback(ValueError("no table"))
