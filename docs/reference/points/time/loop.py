"""A LoopingCall runs at its start, and then after each interval.

`start(5)` runs the function at once. With `now=False` the first turn comes after the first interval. The loop goes on until it is stopped, or fails.

Look at the lines `later loop`: the next turn is scheduled when one has ended.
"""

from twisted.internet.task import Clock, LoopingCall

clock = Clock()
loop = LoopingCall(print, "ask")
loop.clock = clock
polling = loop.start(5)
clock.advance(5)
clock.advance(5)
