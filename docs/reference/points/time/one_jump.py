"""All calls of one `advance` run at its new time.

Time jumps first, and then what is due runs. So the delay of what a call schedules counts from the new time, not from when the call was due. Advance in small steps if that matters to your test.

Look at `later call second`: it is due at 13, and not at 6.
"""

from twisted.internet.task import Clock

clock = Clock()


def begin():
    second = clock.callLater(3, print, "second")


first = clock.callLater(3, begin)
clock.advance(10)
print(f"it is {clock.seconds():.0f}")
clock.advance(3)
