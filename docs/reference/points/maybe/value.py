"""`maybeDeferred` makes a fired Deferred of a value.

The caller needn't know if the function returned a value or a Deferred. It adds its callbacks either way.

Look at `new` and `fire`: the Deferred is made when the function has returned, and is fired at once.
"""

from twisted.internet.defer import maybeDeferred


def lookup(name):
    return f"{name} is known"


answer = maybeDeferred(lookup, "ann")
answer.addCallback(print)
