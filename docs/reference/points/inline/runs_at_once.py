"""An inline body runs at once, up to its first wait.

The call isn't scheduled for later. All that comes before the first `yield` has happened when the call returns. It is no thread: nothing else runs in between, up to the `yield`.

Look at the notes: the body comes before what stands behind the call.
"""

from twisted.internet.defer import Deferred, inlineCallbacks

answer = Deferred()


@inlineCallbacks
def fetch():
    print("the body begins")
    yield answer
    print("the body goes on")


page = fetch()
print("the call has returned")
answer.callback("200 OK")
