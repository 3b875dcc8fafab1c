"""All that follows from a firing runs before `callback` returns.

Firing is a plain function call. If a callback fires another Deferred, the callbacks of that one run inside, and then the first callback goes on. No turn of a reactor comes in between.

Look at the order of the lines `note`: the inner callback stands between the two lines of the outer one.
"""

from twisted.internet.defer import Deferred

order = Deferred()
bill = Deferred()


def ship(item):
    print("shipping begins")
    bill.callback(item)
    print("shipping ends")


bill.addCallback(lambda item: print("the bill is written"))
order.addCallback(ship)
order.callback("tea")
print("the order is done")
