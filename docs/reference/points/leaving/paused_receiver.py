"""A Deferred goes on when it has handed its result to a paused one.

In Twisted its own other callbacks don't run then, until another one is added. Here they run: no callback is lost.

Look at `run #0`, which stands directly behind `hand`. In Twisted it comes behind the second `add #0`.

Leaves Twisted: paused-receiver
"""

from twisted.internet.defer import Deferred, succeed

answer = Deferred()
page = succeed("index")
page.addCallback(lambda name: answer)
page.pause()
answer.addCallback(print)
answer.callback("200 OK")
print("the program goes on")
answer.addCallback(print)
page.unpause()
