"""A failure is handed over, too.

The Deferred that waits gets the failure as its own result, and its errbacks handle it. The other one is left with `None`, and has no unhandled error.

Look at the outcomes. The errback is one of `page`, but it was `answer` that failed.
"""

from twisted.internet.defer import Deferred

page = Deferred()
answer = Deferred()
page.addCallback(lambda name: answer)
page.addErrback(lambda failure: failure.getErrorMessage())
page.callback("index")
answer.errback(ValueError("no such page"))
