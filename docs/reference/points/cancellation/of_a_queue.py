"""A cancelled `get` takes no value from a queue.

The waiter leaves the line, and the next value goes to the next waiter. Without the cancel, a worker that has gone home would still take a job, and the job would be lost.

Look at `put`: `scan` goes to `bob`.
"""

from twisted.internet.defer import DeferredQueue

jobs = DeferredQueue()
ann = jobs.get()
bob = jobs.get()
ann.addErrback(lambda failure: "gone home")
bob.addCallback(print)
ann.cancel()
jobs.put("scan")
