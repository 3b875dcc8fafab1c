"""A returned Deferred that has its result already is taken at once.

There is nothing to wait for, so the chain goes on directly. A cache makes use of that: it returns a fired Deferred for what it knows, and an unfired one for the rest.

Look at `take` in the place of `wait`.
"""

from twisted.internet.defer import Deferred, succeed

page = Deferred()
known = succeed("200 OK")
page.addCallback(lambda name: known)
page.addCallback(print)
page.callback("index")
