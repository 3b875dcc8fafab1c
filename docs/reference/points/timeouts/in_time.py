"""An answer in time ends the time-out.

The timer is cancelled when the result reaches its place in the chain. No delayed call is left behind.

Look at the end of the run: time goes on to 8, and no `timeout` follows.
"""

from twisted.internet.defer import Deferred
from twisted.internet.task import Clock

clock = Clock()
answer = Deferred()
answer.addTimeout(5, clock)
clock.callLater(3, answer.callback, "200 OK")
clock.advance(3)
clock.advance(5)
