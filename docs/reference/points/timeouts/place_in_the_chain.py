"""A time-out covers only what stands before it in the chain.

The answer comes in time, so the timer ends. The callback behind it starts something that takes for ever, and no timer covers that. To limit both, call `addTimeout` last.

Look at the last lines: `page` still waits at 100.
"""

from twisted.internet.defer import Deferred
from twisted.internet.task import Clock

clock = Clock()
page = Deferred()
picture = Deferred()
page.addTimeout(5, clock)
page.addCallback(lambda name: picture)
page.callback("index")
clock.advance(100)
