"""A loop waits for the Deferred of a turn, and skips the turns that it misses.

If the function returns a Deferred, the next turn isn't scheduled before that has a result. Turns are due at whole intervals after the start. So turns that were due meanwhile are left out, and not made up for.

Look at `later loop`: the answer comes at 12, and the next turn is at 15. Those at 5 and 10 are lost.
"""

from twisted.internet.defer import Deferred
from twisted.internet.task import Clock, LoopingCall

clock = Clock()


def ask():
    answer = Deferred()
    clock.callLater(12, answer.callback, "200 OK")
    return answer


loop = LoopingCall(ask)
loop.clock = clock
polling = loop.start(5)
clock.advance(12)
