"""A queue with a size refuses what doesn't fit.

`put` raises QueueOverflow when `size` values are stored. `get` raises QueueUnderflow when `backlog` Deferreds wait; it returns none then. Neither changes the queue.

Look at the two lines `unhandled`: the queue raises, and the program catches that.
"""

from twisted.internet.defer import DeferredQueue, QueueOverflow, QueueUnderflow

jobs = DeferredQueue(size=1, backlog=1)
jobs.put("scan")
try:
    jobs.put("send")
except QueueOverflow:
    print("no room")
ann = jobs.get()
bob = jobs.get()
try:
    jobs.get()
except QueueUnderflow:
    print("too many wait")
