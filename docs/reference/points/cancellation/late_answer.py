"""One late answer is ignored after a cancel.

The code that was to fire the Deferred may not know of the cancel. So its `callback` does nothing, and raises nothing. That holds for one firing. The next one raises AlreadyCalledError as ever.

Look at `swallow` for the late answer, and `refuse` for the one after it.
"""

from twisted.internet.defer import AlreadyCalledError, Deferred

answer = Deferred()
answer.addErrback(lambda failure: "given up")
answer.cancel()
answer.callback("200 OK")
try:
    answer.callback("200 OK")
except AlreadyCalledError:
    print("that is one too many")
