"""A call that is due in 13 microseconds, and one in an hour, which never runs."""

from twisted.internet import reactor, task

task.deferLater(reactor, 0.000013, lambda: None).addCallback(lambda _: reactor.stop())
reactor.callLater(3600, lambda: None)
reactor.run()
