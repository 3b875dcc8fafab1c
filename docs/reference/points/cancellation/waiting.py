"""A cancel of a Deferred that waits goes to the one that it waits for.

`page` has fired, so there is nothing to cancel in itself. It waits for `answer`, and that is cancelled. The CancelledError comes back as the result of the wait.

Look at `fire #1`: the cancel of number 0 fires number 1. Then the failure is handed over.
"""

from twisted.internet.defer import Deferred

page = Deferred()
answer = Deferred()
page.addCallback(lambda name: answer)
page.addErrback(lambda failure: failure.type.__name__)
page.callback("index")
page.cancel()
