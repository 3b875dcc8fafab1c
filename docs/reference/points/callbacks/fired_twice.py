"""A Deferred is fired only once.

A second `callback` or `errback` raises AlreadyCalledError, and the result stays as it was. The error goes to the code that fires, not to the callbacks. It mostly means that two parts of a program both think that the answer is theirs to give.

Look at `refuse`. Nothing runs after it, and the outcome is still the first answer.
"""

from twisted.internet.defer import AlreadyCalledError, Deferred

answer = Deferred()
answer.addCallback(lambda text: text + " from the cache")
answer.callback("200 OK")
try:
    answer.callback("404 Not Found")
except AlreadyCalledError:
    print("it has an answer already")
