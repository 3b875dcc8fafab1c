"""Ann takes a door and then a safe, Bob the safe and then the door; each goes on when an answer comes from outside.

    python3 examples/python/crossed_locks.py

Where both have their first lock before one of them asks for the second, both wait for ever.
`./deferreds --orders examples/crossed_locks.json` runs every order: that happens in 4 of 6.
"""

from racing import race, show
from twisted.internet import defer

door, safe = defer.DeferredLock(), defer.DeferredLock()
answers = {"ann": defer.Deferred(), "bob": defer.Deferred()}
works = {}


@defer.inlineCallbacks
def work(name, first, second):
    """Takes a lock, waits for an answer, takes another lock, and gives both back."""
    yield first.acquire()
    yield answers[name]
    yield second.acquire()
    second.release()
    first.release()
    return "is done"


def start(name, first, second):
    """Has one of them begin."""
    works[name] = work(name, first, second)


race(
    [lambda: start("ann", door, safe), lambda: answers["ann"].callback(None)],
    [lambda: start("bob", safe, door), lambda: answers["bob"].callback(None)],
)
show(**works)
