"""A value goes to the worker that has waited longest.

If nothing is stored, the Deferred of `get` waits. Then `put` fires the first waiter, and all that this worker does with the value runs before `put` returns.

Look at `put`: `ann` has her job, and prints it, before the program goes on.
"""

from twisted.internet.defer import DeferredQueue

jobs = DeferredQueue()
ann = jobs.get()
bob = jobs.get()
ann.addCallback(lambda job: print(f"ann: {job}"))
jobs.put("scan")
print("put has returned")
