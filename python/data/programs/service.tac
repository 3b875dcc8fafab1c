"""A service with a loop, a Deferred that waits, and an answer that comes at the end. It says when it runs."""

import os

from twisted.application import service
from twisted.internet import defer, reactor, task

application = service.Application("service")


class Service(service.Service):
    def startService(self):
        service.Service.startService(self)
        self.loop = task.LoopingCall(lambda: task.deferLater(reactor, 0.01))
        self.done = self.loop.start(0.05)
        self.pending = defer.Deferred(lambda d: None)
        reactor.callWhenRunning(self.announce)

    def announce(self):
        with open(os.environ["RUNS"] + ".new", "w") as file:
            file.write(str(os.getpid()))
        os.rename(os.environ["RUNS"] + ".new", os.environ["RUNS"])

    def stopService(self):
        self.loop.stop()
        self.pending.cancel()
        return self.done


Service().setServiceParent(application)
