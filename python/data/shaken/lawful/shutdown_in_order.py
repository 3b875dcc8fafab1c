"""A stop runs the triggers before, during and after the shutdown in this order, waits for Deferreds, and for jobs that run."""
import sys
import time

from twisted.internet import defer, reactor, threads

steps = []


def before():
    steps.append("before")
    d = defer.Deferred()
    reactor.callLater(0.01, lambda: (steps.append("waited"), d.callback(None)))
    return d


def job():
    time.sleep(0.02)
    steps.append("job")


def main():
    reactor.addSystemEventTrigger("before", "shutdown", before)
    reactor.addSystemEventTrigger("during", "shutdown", steps.append, "during")
    reactor.addSystemEventTrigger("after", "shutdown", steps.append, "after")
    threads.deferToThread(job)
    reactor.callLater(0.005, reactor.stop)


reactor.callWhenRunning(main)
reactor.run()
print(steps)
steps_alone = [step for step in steps if step != "job"]
sys.exit(steps_alone != ["before", "waited", "during", "after"] or steps.count("job") != 1)
