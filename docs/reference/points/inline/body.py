"""An inline body waits at each `yield`.

The body runs to its first `yield`, and the call returns a Deferred. When the awaited Deferred fires, the body goes on with that value. What it returns is the result of the call's Deferred.

Look at `await #1 #0`: the body of number 1 awaits number 0. Its rest runs inside the `run` of number 0.
"""

from twisted.internet.defer import Deferred, inlineCallbacks

answer = Deferred()


@inlineCallbacks
def fetch():
    text = yield answer
    print(text)
    return len(text)


page = fetch()
page.addCallback(print)
answer.callback("hello")
