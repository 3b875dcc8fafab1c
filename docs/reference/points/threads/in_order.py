"""The calls of one thread run in the order in which it made them.

All those that are there run in one turn, one after the other. A call that is made meanwhile waits for the next turn.

Look at the notes: 1 comes before 2, in whatever turn.
"""

from threading import Thread

from twisted.internet import reactor


def work():
    reactor.callFromThread(print, "1 of 2")
    reactor.callFromThread(print, "2 of 2")


thread = Thread(target=work)
thread.start()
thread.join()
print("the thread has ended")
reactor.iterate()
