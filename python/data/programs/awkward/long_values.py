"""Long texts, bytes, integers, lists and dicts, of which equal ones go through two Deferreds."""

from twisted.internet import defer

for value in (b"x" * 60_000, "text " * 10_000, 10**5_000, list(range(100_000)), {"key": [1.5, "x"]}, {1, 2}):
    first = defer.Deferred()
    first.addCallback(lambda value: value)
    first.callback(value)
    defer.succeed(value)

defer.succeed(b"body").addCallback(lambda body: body * 60_000).addCallback(len)
defer.fail(ValueError("long " * 100)).addErrback(lambda _: None)
