"""A child of Twisted's, and one of Python's that is asked for every 0.1 s, each of 0.3 s, end before waits of seconds."""
import subprocess
import sys

from twisted.internet import reactor, task, utils

seen = []
SLEEP = ["-S", "-c", "import time; time.sleep(0.3)"]


def ask(child, loop):
    if child.poll() is not None:
        loop[0].stop()
        seen.append("Python's")


def second(_):
    child = subprocess.Popen([sys.executable, *SLEEP])
    loop = []
    loop.append(task.LoopingCall(ask, child, loop))
    loop[0].start(0.1)
    reactor.callLater(30, seen.append, "wait")
    reactor.callLater(40, reactor.stop)


reactor.callWhenRunning(lambda: utils.getProcessValue(sys.executable, SLEEP).addCallback(lambda _: seen.append("Twisted's")).addCallback(second))
reactor.callLater(60, seen.append, "late")
reactor.run()
print(seen)
sys.exit(seen != ["Twisted's", "Python's", "wait"])
