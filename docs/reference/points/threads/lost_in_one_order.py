"""A race may go wrong in one order of six.

One thread has two jobs for a queue of one place. Another asks for one job, and then for a second. The program runs in an order that goes well, as most do. If both jobs come first, the queue refuses the second one, and `bob` waits for ever. Tests by luck find that seldom, and `--orders` finds it at once.

Look at `bob 1 unfired`, and at the order in which that is so: both posts of caller 0 come before those of caller 1.

Leaves Twisted: posts-at-drains
"""

from threading import Thread

from twisted.internet import reactor
from twisted.internet.defer import DeferredQueue

jobs = DeferredQueue(size=1)


def ask():
    ann = jobs.get()


def ask_again():
    bob = jobs.get()


def produce():
    reactor.callFromThread(jobs.put, "resize")
    reactor.callFromThread(jobs.put, "scan")


def consume():
    reactor.callFromThread(ask)
    reactor.callFromThread(ask_again)


for work in (consume, produce):
    thread = Thread(target=work)
    thread.start()
    thread.join()
reactor.iterate()
