"""A failure that nothing handles stays in its Deferred.

Each callback is skipped, and there is no errback. Nothing is raised: the code that fired it goes on, and so does the program.

Look at the last line. A `fail` there is an error that nobody has handled.

Leaves Twisted: errors-that-nobody-traps
"""

from twisted.internet.defer import Deferred

upload = Deferred()
upload.addCallback(print)
upload.errback(OSError("disk is full"))
print("the program goes on")
