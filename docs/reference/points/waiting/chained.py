"""`chainDeferred` fires another Deferred with the result.

It is no wait: the first Deferred doesn't depend on the second one. It fires it, in a pair of its own, and keeps `None`. A failure is passed on in the same way.

Look at the second `fire`, which stands inside the `run` of the first Deferred.
"""

from twisted.internet.defer import Deferred

received = Deferred()
asked = Deferred()
asked.addCallback(print)
received.chainDeferred(asked)
received.callback("200 OK")
