"""A canceller may fire the Deferred itself.

It can pass on what there is so far, or a failure of its own. Then `cancel` adds nothing to that, and no CancelledError is made.

Look at what follows `cancel`: the only `fire` is that of the canceller.
"""

from twisted.internet.defer import Deferred

download = Deferred(lambda deferred: deferred.callback("the first half"))
download.addCallback(print)
download.cancel()
