"""A list is changed after a Deferred was fired with it, and again inside a callback that gives it on."""

from twisted.internet import defer

items = [1]
deferred = defer.succeed(items)
items.append(2)


def extend(value):
    """Gives the same list, with one item more."""
    value.append(3)
    return value


deferred.addCallback(extend)
gathered = defer.gatherResults([defer.succeed(items), defer.succeed(items)])
items.append(4)
gathered.addCallback(lambda results: results)
