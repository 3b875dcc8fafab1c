"""A `yield` of a Deferred that has its result doesn't wait.

The body goes on at once. So a body whose answers are all there runs to its end inside the call, and its Deferred has fired when the call returns.

Look at `fire #1`, which comes before the last note.
"""

from twisted.internet.defer import inlineCallbacks, succeed


@inlineCallbacks
def fetch(answer):
    text = yield answer
    return text + "!"


known = succeed("200 OK")
page = fetch(known)
print("the call has returned")
