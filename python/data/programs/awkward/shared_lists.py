"""Forty lists, each of which holds the one before it twice: in full they would be shown 2^40 times."""

from twisted.internet import defer

shared = []
for _ in range(40):
    shared = [shared, shared]
defer.succeed(shared).addCallback(len)
