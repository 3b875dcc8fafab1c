"""A gatherResults is fired by hand with a list of two that holds itself, and so isn't shown in full."""

from twisted.internet import defer

circle = [[1, 1]]
circle.append(circle)
gathered = defer.gatherResults([defer.Deferred()])
gathered.callback(circle)
