"""With `fireOnOneCallback` the first value fires the list.

Its result is the value and the number of the child. The other children go on, and their results are dropped. They aren't cancelled: do that yourself if nobody needs them.

Look at the outcome of `fastest`, and at `first`, which is still unfired.
"""

from twisted.internet.defer import Deferred, DeferredList

first = Deferred()
second = Deferred()
fastest = DeferredList([first, second], fireOnOneCallback=True)
second.callback("200 OK")
