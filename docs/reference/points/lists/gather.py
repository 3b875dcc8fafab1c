"""`gatherResults` results in the plain values.

It is a DeferredList with `fireOnOneErrback`, and a callback that takes the values out of the pairs. They stand in the order of the children.

Look at `set #2`, behind the pairs: the list of the values.
"""

from twisted.internet.defer import Deferred, gatherResults

index = Deferred()
news = Deferred()
pages = gatherResults([index, news])
news.callback("the news")
index.callback("the index")
