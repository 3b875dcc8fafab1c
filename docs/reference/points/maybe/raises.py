"""`maybeDeferred` makes a failed Deferred of an exception.

Nothing is raised to the caller. So there is one way to handle errors, the errback, whether the function fails at once or later.

Look at `fire`: the exception is the result of the Deferred.
"""

from twisted.internet.defer import maybeDeferred


def lookup(name):
    raise ValueError(f"no {name}")


answer = maybeDeferred(lookup, "bob")
answer.addErrback(lambda failure: failure.getErrorMessage())
