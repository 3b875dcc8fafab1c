"""Two jobs for a queue that has one place: one thread has the jobs, on another one Ann asks, and then Bob.

    python3 examples/python/full_queue.py

Mostly both are done. Where both come before anybody asks, the queue is full: put raises QueueOverflow, the second job is
lost, and Bob waits for ever. `./deferreds --orders examples/full_queue.json` runs every order.
"""

from racing import race, show
from twisted.internet import defer

jobs = defer.DeferredQueue(size=1)
asked = {}


def ask(name):
    """Has one of them ask for a job."""
    asked[name] = jobs.get()


race(
    [lambda: jobs.put("resize"), lambda: jobs.put("scan")],
    [lambda: ask("ann"), lambda: ask("bob")],
)
show(**asked)
