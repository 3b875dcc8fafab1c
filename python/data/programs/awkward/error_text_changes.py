"""An error whose text is another one each time that it is asked for."""

from twisted.internet import defer


class CountedError(Exception):
    """Counts how often its text was asked for."""

    asked = 0

    def __str__(self):
        self.asked += 1
        return f"asked {self.asked} times"


deferred = defer.Deferred()
deferred.addErrback(lambda failure: failure)
deferred.addErrback(lambda failure: None)
deferred.errback(CountedError())
