"""An error whose text is worked out with a Deferred of its own, and is asked for by the program, too."""

from twisted.internet import defer


class OddError(Exception):
    """Its text is what a Deferred gives."""

    def __str__(self):
        texts = []
        defer.succeed("odd").addCallback(texts.append)
        return texts[0]


deferred = defer.fail(OddError())
deferred.addErrback(lambda failure: failure.getErrorMessage())
