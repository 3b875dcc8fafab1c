"""An errback may also come after the failure.

A Deferred keeps its failure until a pair takes it. So an errback that is added later handles it at once, and Twisted doesn't log it, if it comes before the Deferred is collected.

Look at the order: the failure is there first, then the errback is added, and it runs at once.
"""

from twisted.internet.defer import Deferred

upload = Deferred()
upload.errback(OSError("disk is full"))
print("the program goes on")
upload.addErrback(lambda failure: "not uploaded")
