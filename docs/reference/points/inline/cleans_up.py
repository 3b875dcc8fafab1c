"""What stands in `finally` runs however the body goes on.

It runs after a failure, after a `return`, and after a cancel, also if the body had to wait before. Then the failure goes on as if nothing had been done in between. Release locks and close connections there.

Look at the note, which comes before `fire #1`: the Deferred of the body fails only after that.
"""

from twisted.internet.defer import Deferred, inlineCallbacks

answer = Deferred()


@inlineCallbacks
def fetch():
    try:
        status = yield answer
        raise ValueError(str(status))
    finally:
        print("the connection is closed")


page = fetch()
answer.callback(404)
