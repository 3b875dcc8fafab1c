"""The callbacks of a cancelled inline body run when it has ended.

Twisted fires the body's Deferred at once with an error of its own, and has it wait for a hidden Deferred. So its callbacks run a little later, when that hands over. Here only the body fires its Deferred. The result is the same, but not the order.

Look at the two lines `set`: here that of `page` comes first, in Twisted that of `answer`.

Leaves Twisted: cancelled-inline
"""

from twisted.internet.defer import Deferred, inlineCallbacks

answer = Deferred()


@inlineCallbacks
def fetch():
    yield answer


page = fetch()
page.addErrback(lambda failure: print("page is cancelled"))
page.cancel()
