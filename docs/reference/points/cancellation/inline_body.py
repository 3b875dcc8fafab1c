"""Cancelling an inline body cancels what it awaits.

The CancelledError is raised at the `yield`, where the body may catch it, tidy up and return. What it returns is the result. A body that awaits something else after that goes on, and has to be cancelled again.

Look at `cancel` twice: the body's own, and then that of `answer`.

Leaves Twisted: cancelled-inline
"""

from twisted.internet.defer import CancelledError, Deferred, inlineCallbacks

answer = Deferred()


@inlineCallbacks
def fetch():
    try:
        text = yield answer
    except CancelledError:
        print("tidied up")
        text = "nothing"
    return text


page = fetch()
page.cancel()
