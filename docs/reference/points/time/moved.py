"""A delayed call can be moved.

`reset` has it run that many seconds from now, and `delay` that many seconds later than it was due. A time-out that begins anew with each sign of life is a `reset`.

Look at the lines `reset`: 3 and 5 make 8, and 2 more make 10.
"""

from twisted.internet.task import Clock

clock = Clock()
alarm = clock.callLater(5, print, "alarm")
clock.advance(3)
alarm.reset(5)
alarm.delay(2)
clock.advance(6)
print("quiet until now")
clock.advance(1)
