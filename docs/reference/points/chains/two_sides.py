"""A value takes the callback of a pair, and a failure takes the errback.

Only one side of a pair runs. Which one depends on the result at that moment, not on how the Deferred was fired.

Look at the outcomes: the same pair gave each Deferred another text.
"""

from twisted.internet.defer import Deferred


def with_answer(deferred):
    deferred.addCallbacks(lambda text: "shown", lambda failure: "not shown")


page = Deferred()
picture = Deferred()
with_answer(page)
with_answer(picture)
page.callback("200 OK")
picture.errback(ValueError("bad request"))
