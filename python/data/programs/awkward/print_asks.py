"""A value that is printed makes a Deferred in its `__str__`, which the program calls by that."""

from twisted.internet import defer


class Odd:
    """Counts how often its text was asked for, on a Deferred."""

    count = 0

    def __str__(self):
        self.count += 1
        defer.succeed(self.count).addCallback(str)
        return f"asked {self.count} times"


print(Odd(), "in all", sep=" ", end="!\n")
