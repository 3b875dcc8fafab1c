"""A callback runs when its Deferred is fired.

Nothing happens when a callback is added: the Deferred only keeps it. When the Deferred is fired, the callback is called with the value.

Look at the line `run`: there the callback begins. Its `print` is the line `note`, and `set` is what it returned. JSON's `null` is `None`.
"""

from twisted.internet.defer import Deferred

answer = Deferred()
answer.addCallback(print)
answer.callback("200 OK")
