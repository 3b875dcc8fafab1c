"""Two accounts whose locks are taken in the order of their names, whichever way the transfer goes."""

from twisted.internet import defer, task


class Account:
    def __init__(self, name, amount):
        self.name = name
        self.amount = amount
        self.lock = defer.DeferredLock()


@defer.inlineCallbacks
def transfer(reactor, source, target, amount):
    first, second = sorted([source, target], key=lambda account: account.name)
    yield first.lock.acquire()
    try:
        yield task.deferLater(reactor, 0.01, lambda: None)
        yield second.lock.acquire()
        try:
            source.amount -= amount
            target.amount += amount
        finally:
            second.lock.release()
    finally:
        first.lock.release()


@defer.inlineCallbacks
def main(reactor):
    ann, bob = Account("ann", 50), Account("bob", 20)
    yield transfer(reactor, ann, bob, 5)
    works = [transfer(reactor, ann, bob, 10), transfer(reactor, bob, ann, 3)]
    both = defer.DeferredList(works)
    yield task.deferLater(reactor, 0.2, lambda: None)
    print(f"done: {both.called}; ann has {ann.amount}, bob {bob.amount}")


if __name__ == "__main__":
    task.react(main)
