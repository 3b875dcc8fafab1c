"""`maybeDeferred` returns the function's own Deferred, if it returns one.

No second Deferred is made, and nothing waits. Callbacks are added to the one that the function has made.

Look at the journal: there is only one `new`. The line `name` is the call of `maybeDeferred`.
"""

from twisted.internet.defer import Deferred, maybeDeferred

asked = Deferred()


def lookup(name):
    return asked


answer = maybeDeferred(lookup, "ann")
answer.addCallback(print)
asked.callback("ann is known")
