"""`check` asks for the class, and raises nothing.

It returns the class that matches, or `None`. The errback decides what to do then. Return the failure if it isn't yours, since the errback ends it otherwise.

Look at the outcome: `check` found no KeyError, and the errback passed the failure on.
"""

from twisted.internet.defer import Deferred


def missing(failure):
    if failure.check(KeyError):
        return "404 Not Found"
    return failure


page = Deferred()
page.addErrback(missing)
page.errback(ValueError("a bug"))
