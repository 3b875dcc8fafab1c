"""`callFromThread` runs a function in a later turn of the reactor.

The thread doesn't wait for that: its call returns at once. The reactor calls the function when what it does now has ended, never inside it.

Look at `fire`: it comes with the turn, although the thread ended before.
"""

from threading import Thread

from twisted.internet import reactor
from twisted.internet.defer import Deferred

answer = Deferred()
answer.addCallback(print)
thread = Thread(target=reactor.callFromThread, args=(answer.callback, "200 OK"))
thread.start()
thread.join()
print("the thread has ended")
reactor.iterate()
