"""An `unpause` without a `pause` is refused.

Twisted counts to -1, and takes that for a pause. Nothing of the Deferred runs any more, and no error says so. Here AssertionError is raised, and nothing changes.

Look at the last lines: in Twisted the callback never runs.

Leaves Twisted: unpause-at-zero
"""

from twisted.internet.defer import Deferred

page = Deferred()
page.callback("index")
page.unpause()
page.addCallback(print)
