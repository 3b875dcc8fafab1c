"""Errbacks give lists that hold Failures, which are values, and what has failed of a DeferredList is picked out."""

from twisted.internet import defer

defer.fail(ValueError("no")).addErrback(lambda failure: [failure])
results = defer.DeferredList([defer.fail(ValueError("no")), defer.fail(KeyError()), defer.succeed(1)], consumeErrors=True)
results.addCallback(lambda results: results)
results.addCallback(lambda results: [failure for succeeded, failure in results if not succeeded])
results.addCallback(len)


@defer.inlineCallbacks
def collected():
    """Returns the result of a DeferredList."""
    results = yield defer.DeferredList([defer.fail(ValueError("no"))], consumeErrors=True)
    return results


collected().addCallback(len)
