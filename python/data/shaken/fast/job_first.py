"""A job of 0.3 s ends before a wait of 5 s does; then nothing works, and a thread that isn't of the pool ends before another wait."""
import sys
import threading
import time

from twisted.internet import reactor, threads

seen = []


def work():
    time.sleep(0.3)
    reactor.callFromThread(seen.append, "thread")


def again():
    seen.append("wait")
    thread = threading.Thread(target=work)
    thread.start()
    reactor.callLater(4, seen.append, "second wait")
    reactor.callLater(20, reactor.stop)


reactor.callWhenRunning(lambda: threads.deferToThread(time.sleep, 0.3).addCallback(lambda _: seen.append("job")))
reactor.callLater(5, again)
reactor.run()
print(seen)
sys.exit(seen != ["job", "wait", "thread", "second wait"])
