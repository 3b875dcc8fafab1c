"""`trap` passes on all other errors.

It raises the failure again if it is of no such class. The rest of the errback doesn't run, and the failure goes on to the next errback.

Look at the two lines `set`: the first errback leaves the failure, the second one ends it.
"""

from twisted.internet.defer import Deferred


def missing(failure):
    failure.trap(KeyError)
    return "404 Not Found"


page = Deferred()
page.addErrback(missing)
page.addErrback(lambda failure: "500 Internal Server Error")
page.errback(ValueError("a bug"))
