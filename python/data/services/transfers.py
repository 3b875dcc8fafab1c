"""Two accounts whose locks are taken in the order of the transfer (two transfers that cross wait for each other for ever)."""

from twisted.internet import defer, task


class Account:
    def __init__(self, name, amount):
        self.name = name
        self.amount = amount
        self.lock = defer.DeferredLock()


@defer.inlineCallbacks
def transfer(reactor, source, target, amount):
    yield source.lock.acquire()
    try:
        yield task.deferLater(reactor, 0.01, lambda: None)
        yield target.lock.acquire()
        try:
            source.amount -= amount
            target.amount += amount
        finally:
            target.lock.release()
    finally:
        source.lock.release()


@defer.inlineCallbacks
def main(reactor):
    ann, bob = Account("ann", 50), Account("bob", 20)
    yield transfer(reactor, ann, bob, 5)
    works = [transfer(reactor, ann, bob, 10), transfer(reactor, bob, ann, 3)]
    both = defer.DeferredList(works)
    yield task.deferLater(reactor, 0.2, lambda: None)
    print(f"done: {both.called}; ann has {ann.amount}, bob {bob.amount}")


if __name__ == "__main__":
    task.react(main)
