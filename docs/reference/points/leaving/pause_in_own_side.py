"""A callback may pause its own Deferred.

In Twisted the callbacks that follow still run, since the pause is only looked at before the first one. Here it is looked at before each.

Look at `unpause`: here the second callback runs then, in Twisted it has run before.

Leaves Twisted: pause-in-own-side
"""

from twisted.internet.defer import Deferred

page = Deferred()
page.addCallback(lambda name: page.pause())
page.addCallback(print)
page.callback("index")
print("paused")
page.unpause()
