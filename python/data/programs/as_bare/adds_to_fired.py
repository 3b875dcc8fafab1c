"""Adds pairs to fired Deferreds in each way, whose sides show who calls; a subclass shows when its own method is called."""

import traceback

from twisted.internet import defer


def show(value, *args, **keywords):
    """Shows who calls."""
    print(args, keywords, [(one.filename, one.lineno, one.name) for one in traceback.extract_stack()])
    return value


def fail(value):
    """Fails."""
    raise KeyError(value)


class Loud(defer.Deferred):
    """Reports that pairs are added."""

    def addCallbacks(self, *args, **keywords):
        """Adds a pair."""
        print(len(args), sorted(keywords))
        return super().addCallbacks(*args, **keywords)


fired = defer.succeed(1)
fired.addCallback(show, 1, x=2).addBoth(show, 3).addCallbacks(show, None, (4,)).addErrback(show)
fired.addCallback(fail).addErrback(lambda failure: print(failure.getTraceback()))
failed = defer.fail(ValueError())
failed.addErrback(show, 5, y=6).addBoth(show).addCallbacks(show, show, errbackArgs=(7,)).addErrback(lambda failure: None)
loud = Loud()
loud.addCallback(show).addBoth(show)
loud.callback(3)
loud.addErrback(show)
defer.gatherResults([defer.succeed(1)]).addCallback(show)
defer.maybeDeferred(show, 1).addCallback(show)
