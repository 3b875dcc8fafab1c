"""A call that was reset keeps its place among those of the same time.

Calls of one time run in the order in which they were scheduled. Twisted's Clock sorts them by their times, and one that is reset may come before the others or behind them, by what its time was before.

Look at the notes: here `first` is printed first, in Twisted `second`.

Leaves Twisted: reset-order
"""

from twisted.internet.task import Clock

clock = Clock()
first = clock.callLater(9, print, "first")
second = clock.callLater(5, print, "second")
first.reset(5)
clock.advance(5)
