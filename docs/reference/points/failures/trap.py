"""`trap` says which errors an errback is for.

If the failure is of one of the classes, `trap` returns the class, and the errback goes on. So `trap` stands in its first line, as the class stands behind `except`.

Look at `set`: the failure is handled, and the errback's value is the result.
"""

from twisted.internet.defer import Deferred


def missing(failure):
    failure.trap(KeyError, ValueError)
    return "404 Not Found"


page = Deferred()
page.addErrback(missing)
page.errback(ValueError("no such page"))
