"""Coroutines and inline bodies that nobody keeps: each is closed, and gives its connection back by a Deferred."""

import gc

from twisted.internet import defer

gave_back = []


class Pool:
    """One connection, and who waits for it."""

    waiting = None

    def __enter__(self):
        return self

    def __exit__(self, *error):
        gave_back.append(error[0].__name__)
        if self.waiting is not None:
            self.waiting.callback(len(gave_back))


async def request(pool, answer):
    """Has a connection until it has its answer."""
    with pool:
        return await answer


@defer.inlineCallbacks
def old_request(pool, answer):
    """The same as a generator."""
    with pool:
        yield answer


def drop(_):
    """Begins requests whose answers never come."""
    pool = Pool()
    pool.waiting = defer.Deferred()
    pool.waiting.addCallback(lambda number: number + 1)
    defer.ensureDeferred(request(pool, defer.Deferred()))
    gc.collect()
    assert pool.waiting.called


gc.disable()
outside = Pool()
outside.waiting = defer.Deferred()
outside.waiting.addCallback(str)
old_request(outside, defer.Deferred())
gc.collect()
defer.succeed(None).addCallback(drop).addCallback(lambda _: gave_back)
gc.enable()
print(gave_back)
