"""A delayed call can be cancelled until it runs.

After that, `cancel` raises AlreadyCalled, and after a cancel AlreadyCancelled. Ask `call.active()` first if you don't know. AlreadyCalled is for calls, and AlreadyCalledError for Deferreds.

Look at `uncall`: the call never runs.
"""

from twisted.internet.error import AlreadyCancelled
from twisted.internet.task import Clock

clock = Clock()
alarm = clock.callLater(5, print, "alarm")
alarm.cancel()
try:
    alarm.cancel()
except AlreadyCancelled:
    print("it is cancelled already")
clock.advance(10)
