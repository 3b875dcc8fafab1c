"""The next callback is called with what the last one returned.

Callbacks run in the order in which they were added, and each may change the result. A function without `return` returns `None`. So a callback that only prints loses the result for those that follow. Return the input if they still need it.

Look at the second `set`. The second callback prints 119 and returns nothing, so the third one is called with `None`.
"""

from twisted.internet.defer import Deferred


def show(price):
    print(price)


price = Deferred()
price.addCallback(lambda net: net + 19)
price.addCallback(show)
price.addCallback(lambda shown: [shown])
price.callback(100)
