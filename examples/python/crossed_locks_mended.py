"""Ann and Bob of crossed_locks.py, mended: both take the door first, and then the safe.

    python3 examples/python/crossed_locks_mended.py

Both are done in every order: `./deferreds --orders examples/crossed_locks_mended.json` says so.
"""

from racing import race, show
from twisted.internet import defer

door, safe = defer.DeferredLock(), defer.DeferredLock()
answers = {"ann": defer.Deferred(), "bob": defer.Deferred()}
works = {}


@defer.inlineCallbacks
def work(name, first, second):
    """Takes a lock, waits for an answer, takes another lock, and gives both back."""
    yield first.acquire()
    yield answers[name]
    yield second.acquire()
    second.release()
    first.release()
    return "is done"


def start(name, first, second):
    """Has one of them begin."""
    works[name] = work(name, first, second)


race(
    [lambda: start("ann", door, safe), lambda: answers["ann"].callback(None)],
    [lambda: start("bob", door, safe), lambda: answers["bob"].callback(None)],
)
show(**works)
