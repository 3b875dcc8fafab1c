"""A turn that fails ends the loop.

The Deferred of `start` fails with the error, and no turn follows. Without an errback there, the loop ends in silence. Add one that logs the error and starts the loop again, or catch errors in the function.

Look at the end of the run: time goes on, and no `turn` follows.
"""

from twisted.internet.task import Clock, LoopingCall


def ask():
    raise ValueError("no answer")


clock = Clock()
loop = LoopingCall(ask)
loop.clock = clock
polling = loop.start(5)
clock.advance(20)
