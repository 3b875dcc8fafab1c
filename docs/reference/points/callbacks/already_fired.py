"""A callback that is added to a fired Deferred runs at once.

You needn't know if a Deferred has fired already. The callback is called with the current result, before `addCallback` returns.

Look at where `run` stands: directly after `add`, and before the program goes on.
"""

from twisted.internet.defer import Deferred

answer = Deferred()
answer.callback("200 OK")
answer.addCallback(print)
print("the program goes on")
