"""Threads that post while they hold a lock have their posts taken in the order in which they had the lock."""
import sys
import threading

from twisted.internet import reactor

lock = threading.Lock()
locked, taken = [], []


def work(name):
    for number in range(5):
        with lock:
            locked.append((name, number))
            reactor.callFromThread(taken.append, (name, number))


def main():
    threads = [threading.Thread(target=work, args=(name,)) for name in "abc"]
    for thread in threads:
        thread.start()
    reactor.callInThread(end, threads)


def end(threads):
    for thread in threads:
        thread.join()
    reactor.callFromThread(reactor.stop)


reactor.callWhenRunning(main)
reactor.run()
print(taken)
sys.exit(taken != locked or len(taken) != 15)
