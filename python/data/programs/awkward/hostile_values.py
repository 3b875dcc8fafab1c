"""Values, arguments and callbacks that fire a Deferred whenever Python asks them for something."""

from twisted.internet import defer

asked = defer.Deferred()


def tell():
    """Tells that something was asked for."""
    if not asked.called:
        asked.callback("asked")


class Hostile:
    """Tells of each question."""

    def __eq__(self, other):
        tell()
        return True

    def __hash__(self):
        tell()
        return 1

    def __bool__(self):
        tell()
        return True

    def __repr__(self):
        tell()
        return "hostile"

    def __len__(self):
        tell()
        return 2

    def __getattr__(self, name):
        tell()
        raise AttributeError(name)

    def __call__(self, value):
        return value


class HostileText(str):
    """A text that reports each question."""

    def __str__(self):
        tell()
        return "another"

    def __iter__(self):
        tell()
        return iter("another")


class HostileList(list):
    """A list that reports each question."""

    def __iter__(self):
        tell()
        return iter([])

    def __len__(self):
        tell()
        return 0


deferred = defer.Deferred()
deferred.addCallbacks(lambda value, _: value, lambda value, _: value, callbackArgs=(Hostile(),), errbackArgs=(Hostile(),))
deferred.addCallback(Hostile())
deferred.addCallback(lambda value: HostileText("text"))
deferred.addCallback(lambda value: HostileList([1, 2]))
deferred.callback([Hostile(), (Hostile(), 1)])
defer.gatherResults([deferred]).addCallback(lambda results: {1: results})
print("asked" if asked.called else "not asked")
