"""A child of a list keeps its value for its own callbacks.

The list adds a pair to each child, which reports the result and passes it on. So callbacks that are added later get the value, too.

Look at the `run` of the child: the list's pair comes first, and leaves `"the news"`.
"""

from twisted.internet.defer import Deferred, DeferredList

news = Deferred()
pages = DeferredList([news])
news.addCallback(print)
news.callback("the news")
