"""A canceller stops the work behind a Deferred.

The code that makes the Deferred passes the canceller to it. `cancel` calls it, and then fires the Deferred with CancelledError. Since the canceller has stopped the work, no late answer is expected, and none is swallowed.

Look at `uncall`: the canceller takes back the call that would have fired the Deferred.
"""

from twisted.internet.defer import Deferred
from twisted.internet.task import Clock

clock = Clock()


def sleep(seconds):
    slept = Deferred(lambda deferred: call.cancel())
    call = clock.callLater(seconds, slept.callback, "awake")
    return slept


nap = sleep(10)
nap.addErrback(lambda failure: failure.type.__name__)
clock.advance(4)
nap.cancel()
clock.advance(6)
