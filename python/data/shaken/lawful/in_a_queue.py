"""A thread puts into a queue of Python's, after it has posted; the one that gets it posts then. The posts are taken in this order."""
import queue
import sys
import threading

from twisted.internet import reactor

order = []
passed = queue.Queue()


def put():
    for number in range(5):
        reactor.callFromThread(order.append, ("put", number))
        passed.put(number)
    passed.put(None)


def get():
    for number in iter(passed.get, None):
        reactor.callFromThread(order.append, ("got", number))
    reactor.callFromThread(reactor.stop)


def main():
    threading.Thread(target=put).start()
    reactor.callInThread(get)


reactor.callWhenRunning(main)
reactor.run()
print(order)
places = {what: place for place, what in enumerate(order)}
sys.exit(len(places) != 10 or any(places["put", n] > places["got", n] for n in range(5)) or [n for w, n in order if w == "got"] != list(range(5)))
