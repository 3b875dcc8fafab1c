"""With `fireOnOneErrback` the first failure fails the list.

The list fails with FirstError. That holds the failure, as `subFailure`, and the number of the child, as `index`. An errback that traps ValueError doesn't match: look into `subFailure`.

Look at `fire #2`: FirstError, at 1, with the ValueError in it.
"""

from twisted.internet.defer import Deferred, DeferredList

first = Deferred()
second = Deferred()
pages = DeferredList([first, second], fireOnOneErrback=True, consumeErrors=True)
pages.addErrback(lambda failure: failure.value.subFailure.getErrorMessage())
second.errback(ValueError("no index"))
