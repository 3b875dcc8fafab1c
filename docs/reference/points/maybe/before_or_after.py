"""Code behind `addCallback` may run before the callback, or after it.

If the Deferred has fired, the callback runs inside `addCallback`. If not, it runs when the answer comes. Code that counts on one of the two orders fails as soon as a cache is added. Put what has to come after the answer into the callback.

Look at the notes: the two requests print in different orders.
"""

from twisted.internet.defer import Deferred, succeed

known = succeed("from the cache")
unknown = Deferred()


def ask(answer):
    answer.addCallback(lambda text: print(f"the answer: {text}"))
    print("asked")


ask(known)
ask(unknown)
unknown.callback("from the network")
