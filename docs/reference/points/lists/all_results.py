"""A DeferredList waits for all, and never fails.

Its result has a pair for each child, in the order of the children, not in that of the answers. The first part of a pair says if the child succeeded. So look at each of them: a failure in the list reaches no errback of the list.

Look at the outcome of `all_pages`, and at when it is fired: with the last answer.
"""

from twisted.internet.defer import Deferred, DeferredList

index = Deferred()
news = Deferred()
all_pages = DeferredList([index, news], consumeErrors=True)
news.callback("the news")
index.errback(ValueError("no index"))
