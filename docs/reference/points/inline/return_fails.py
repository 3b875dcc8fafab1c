"""A `return` that fails inside a `try` is caught there.

What stands behind `return` is worked out before the body is left, so `except` sees what it raises. A Failure that is returned is another matter: it is a value, and no `except` sees it.

Look at the outcome of `page`: `text + 1` raised TypeError, and the body returned something else.
"""

from twisted.internet.defer import Deferred, inlineCallbacks

answer = Deferred()


@inlineCallbacks
def fetch():
    try:
        text = yield answer
        return text + 1
    except TypeError:
        return "no number"


page = fetch()
answer.callback("index")
