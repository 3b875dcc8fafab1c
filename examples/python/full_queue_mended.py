"""The queue of full_queue.py, mended: a job is put when there is room for it, and taking one makes room.

    python3 examples/python/full_queue_mended.py

Both jobs are done in every order: `./deferreds --orders examples/full_queue_mended.json` says so.
"""

from racing import race, show
from twisted.internet import defer

jobs = defer.DeferredQueue(size=1)
room = defer.DeferredSemaphore(1)
asked = {}


def offer(job):
    """Puts a job as soon as there is room."""
    room.acquire().addCallback(lambda _: jobs.put(job))


def ask(name):
    """Has one of them ask for a job."""
    asked[name] = jobs.get().addCallback(take)


def take(job):
    """Makes room for the next job."""
    room.release()
    return job


race(
    [lambda: offer("resize"), lambda: offer("scan")],
    [lambda: ask("ann"), lambda: ask("bob")],
)
show(**asked)
