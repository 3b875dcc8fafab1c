"""A body awaits another one by its Deferred.

Call it, and `yield` what the call returns. Without the `yield` the other body starts all the same, but nobody waits for it, and nobody sees its errors.

Look at the two lines `await`: `page` awaits `session`, which awaits `answer`.
"""

from twisted.internet.defer import Deferred, inlineCallbacks

answer = Deferred()


@inlineCallbacks
def log_in():
    name = yield answer
    return f"session of {name}"


@inlineCallbacks
def fetch():
    session = log_in()
    text = yield session
    return text + ", page 1"


page = fetch()
answer.callback("ann")
