"""A generator is closed inside Twisted's code, and fires a Deferred in its `finally`."""

from twisted.internet import defer

closed = defer.Deferred()
closed.addCallback(str.upper)


def rows():
    """Yields rows, and reports its end."""
    try:
        yield "row"
    finally:
        closed.callback("closed")


def started():
    """A generator that stands at its first row."""
    generator = rows()
    next(generator)
    return generator


defer.succeed(started()).addCallback(lambda _: None)
