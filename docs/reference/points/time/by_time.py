"""Calls run by their times, and at one time in the order of scheduling.

It doesn't matter which was scheduled first, if the times differ. A Clock and this program keep to the order of scheduling at equal times. The reactor promises no order then.

Look at the lines `call`: the one at 3 comes first.
"""

from twisted.internet.task import Clock

clock = Clock()
tea = clock.callLater(5, print, "tea")
cake = clock.callLater(5, print, "cake")
milk = clock.callLater(3, print, "milk")
clock.advance(10)
