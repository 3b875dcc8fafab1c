"""A program that never ends if its job comes after its timer: then nobody fires what it waits for."""
import time

from twisted.internet import defer, reactor, threads

done = defer.Deferred()


def main():
    timer = reactor.callLater(0.045, lambda: None)
    threads.deferToThread(time.sleep, 0.002).addCallback(lambda _: done.callback(None) if timer.active() else None)


done.addCallback(lambda _: reactor.stop())
reactor.callWhenRunning(main)
reactor.run()
