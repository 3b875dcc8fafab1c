"""An error whose text fires a Deferred of the program's, so the code that asks for the text fires it."""

from twisted.internet import defer

asked = defer.Deferred()
asked.addCallback(str)


class TellingError(Exception):
    """Tells that its text is asked for."""

    def __str__(self):
        if not asked.called:
            asked.callback("asked")
        return "telling"


defer.fail(TellingError()).addErrback(lambda failure: None)
