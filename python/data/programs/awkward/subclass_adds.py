"""A subclass whose `addCallbacks` does more is a child of a list, so that Twisted's own code calls it."""

from twisted.internet import defer


class Logging(defer.Deferred):
    """Makes a Deferred for each pair that is added."""

    def addCallbacks(self, *arguments, **keywords):
        """Adds a pair."""
        defer.succeed("added")
        return super().addCallbacks(*arguments, **keywords)


child = Logging()
defer.gatherResults([child])
child.callback(1)
