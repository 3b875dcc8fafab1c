"""A call that is due in a quarter of a second, and one in an hour, which never runs."""

from twisted.internet import reactor, task

task.deferLater(reactor, 0.25, lambda: None).addCallback(lambda _: reactor.stop())
reactor.callLater(3600, lambda: None)
reactor.run()
