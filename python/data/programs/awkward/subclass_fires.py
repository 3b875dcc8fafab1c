"""A subclass whose `callback` does more is fired by the program, and by another Deferred that is chained to it."""

from twisted.internet import defer


class Counting(defer.Deferred):
    """Counts how often it is fired."""

    count = 0

    def callback(self, result):
        """Tells the count to a Deferred of its own."""
        Counting.count += 1
        defer.succeed(self.count).addCallback(lambda count: count + 1)
        super().callback(result)


counting = Counting()
defer.succeed(1).chainDeferred(counting)
Counting().callback(2)
