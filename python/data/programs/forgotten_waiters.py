"""A cache that asks once for all who wait for a key: where the answer is an error, only the first hears of it."""

from twisted.internet import defer, reactor, task


class Cache:
    def __init__(self, ask, lifetime):
        self.ask = ask
        self.lifetime = lifetime
        self.values = {}
        self.waiting = {}

    def get(self, key):
        if key in self.values:
            return defer.succeed(self.values[key])
        waiter = defer.Deferred()
        others = self.waiting.setdefault(key, [])
        others.append(waiter)
        if len(others) == 1:
            self.ask(key).addCallback(self.keep, key).addErrback(self.forget, key)
        return waiter

    def keep(self, value, key):
        self.values[key] = value
        reactor.callLater(self.lifetime, self.values.pop, key)
        for waiter in self.waiting.pop(key):
            waiter.callback(value)

    def forget(self, failure, key):
        self.waiting.pop(key)[0].errback(failure)


def ask(key):
    answer = defer.Deferred()
    if key == "bad":
        reactor.callLater(0.1, answer.errback, OSError("502 Bad Gateway"))
    else:
        reactor.callLater(0.1, answer.callback, key.upper())
    return answer


def handle(cache, key, number):
    request = cache.get(key).addTimeout(0.4, reactor)
    request.addCallbacks(lambda value: print(number, value), lambda failure: print(number, failure.type.__name__))
    return request


def main(reactor):
    cache = Cache(ask, 0.3)
    requests = [handle(cache, key, number) for number, key in enumerate(["a", "a", "bad", "bad", "bad"])]
    reactor.callLater(0.2, lambda: 1 / 0)
    return defer.DeferredList(requests)


task.react(main)
