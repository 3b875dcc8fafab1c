"""The calls of two threads run in any order.

Which thread comes first is chance. Here one answers, and the other cancels. The program makes the answer come first, but another run may end otherwise. A script names the threads as callers, and `--orders` runs it in every order that is possible.

Look at the outcomes: in one order there is an answer, in the other it comes too late.

Leaves Twisted: posts-at-drains
"""

from threading import Thread

from twisted.internet import reactor
from twisted.internet.defer import Deferred

answer = Deferred()
answering = Thread(target=reactor.callFromThread, args=(answer.callback, "200 OK"))
answering.start()
answering.join()
cancelling = Thread(target=reactor.callFromThread, args=(answer.cancel,))
cancelling.start()
cancelling.join()
reactor.iterate()
