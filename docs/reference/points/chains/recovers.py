"""An errback that returns a value ends the failure.

What an errback returns is the result, as with a callback. So the callbacks that follow run again. `None` counts, too: an errback that only logs the error ends it.

Look at the last `run`: the callback prints what the errback returned.
"""

from twisted.internet.defer import Deferred

page = Deferred()
page.addErrback(lambda failure: "a page from the cache")
page.addCallback(print)
page.errback(ValueError("bad request"))
