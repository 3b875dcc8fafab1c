"""One failure fails `gatherResults`, and the others go on.

The result is FirstError, as soon as the first child fails. The other children aren't cancelled, and nobody looks at their results any more. An errback of the list is the place to cancel them.

Look at the end: the errback cancels `news`, whose answer isn't needed any more.
"""

from twisted.internet.defer import Deferred, gatherResults

index = Deferred()
news = Deferred()
pages = gatherResults([index, news], consumeErrors=True)


def stop_the_others(failure):
    news.cancel()
    return failure.value.subFailure.getErrorMessage()


pages.addErrback(stop_the_others)
index.errback(ValueError("no index"))
