"""A missing side passes the result on.

A pair of `addErrback` has no callback, and a pair of `addCallback` no errback. On a result for which there is no function, the pair changes nothing. So errbacks in the middle of a chain cost nothing if all goes well.

Look at the run: there are two lines `add` and one `run`. The pair of the errback is skipped, which writes no line.
"""

from twisted.internet.defer import Deferred

page = Deferred()
page.addErrback(lambda failure: "a page from the cache")
page.addCallback(len)
page.callback("hello")
