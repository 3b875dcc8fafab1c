"""The Deferred of `start` fires when the loop is stopped.

Its value is the loop. If a turn still waits for its Deferred, the loop ends when that has its result. No turn follows.

Look at `stop`: no `fire` of `polling` follows it before the answer has come.
"""

from twisted.internet.defer import Deferred
from twisted.internet.task import Clock, LoopingCall

clock = Clock()
answer = Deferred()
loop = LoopingCall(lambda: answer)
loop.clock = clock
polling = loop.start(5)
polling.addCallback(lambda loop: print("the loop has ended"))
loop.stop()
print("stop has returned")
answer.callback("200 OK")
