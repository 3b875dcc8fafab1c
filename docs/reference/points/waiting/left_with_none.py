"""The Deferred that was returned keeps nothing.

A result belongs to one Deferred. Once it was handed over, or taken, the other one has `None`. So two Deferreds can't wait for one answer: only the first gets it. The second has `None`, without any error.

Look at `take #2 #0`: `second` takes what is left there, which is `null`.
"""

from twisted.internet.defer import Deferred, succeed

answer = Deferred()
first = succeed("index")
first.addCallback(lambda name: answer)
answer.callback("200 OK")
second = succeed("index")
second.addCallback(lambda name: answer)
