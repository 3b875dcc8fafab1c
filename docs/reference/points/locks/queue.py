"""A queue hands out its values in the order in which they came.

`put` stores a value if nobody waits. `get` returns a Deferred, which has fired already if a value is stored.

Look at the two lines `get`: a `fire` follows each at once.
"""

from twisted.internet.defer import DeferredQueue

jobs = DeferredQueue()
jobs.put("scan")
jobs.put("send")
ann = jobs.get()
bob = jobs.get()
