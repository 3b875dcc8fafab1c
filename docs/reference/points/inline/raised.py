"""A failure is raised at the `yield`.

So `try` and `except` do what an errback does. What is caught doesn't reach the Deferred of the body.

Look at the outcome of `page`: the body has caught the error, and returned something else.
"""

from twisted.internet.defer import Deferred, inlineCallbacks

answer = Deferred()


@inlineCallbacks
def fetch():
    try:
        text = yield answer
    except ValueError:
        text = "no such page"
    return text


page = fetch()
answer.errback(ValueError("404"))
