"""A time-out reaches what the Deferred waits for.

It cancels as `cancel` does. So the Deferred at the end of the waits is cancelled, with its canceller, and the failure comes back. `page` makes a TimeoutError of it.

Look at `fire #1`: the timer of `page` has cancelled `picture`.
"""

from twisted.internet.defer import Deferred
from twisted.internet.task import Clock

clock = Clock()
page = Deferred()
picture = Deferred()
page.addCallback(lambda name: picture)
page.addTimeout(5, clock)
page.addErrback(lambda failure: failure.type.__name__)
page.callback("index")
clock.advance(5)
