"""An answer after the time-out is ignored.

The time-out is a cancel, so one late firing is swallowed. The code that answers needn't know that nobody waits any more. It raises no error, and the answer reaches no callback.

Look at the last line of the journal, `swallow`.
"""

from twisted.internet.defer import Deferred
from twisted.internet.task import Clock

clock = Clock()
answer = Deferred()
answer.addTimeout(5, clock)
answer.addErrback(lambda failure: failure.type.__name__)
clock.callLater(7, answer.callback, "200 OK")
clock.advance(5)
clock.advance(2)
