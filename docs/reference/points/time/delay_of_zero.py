"""A delay of 0 still waits for a turn.

The call doesn't run inside `callLater`, but when time next goes on, even by 0. Use that to have something run after all that runs now.

Look at the notes: the program goes on first.
"""

from twisted.internet.task import Clock

clock = Clock()
soon = clock.callLater(0, print, "soon")
print("the program goes on")
clock.advance(0)
