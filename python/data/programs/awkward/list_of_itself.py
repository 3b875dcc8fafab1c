"""A list that holds itself twice, and one that holds it."""

from twisted.internet import defer

circle = []
circle += [circle, circle]
defer.succeed(circle)
defer.succeed([circle, 1]).addCallback(lambda value: value)
