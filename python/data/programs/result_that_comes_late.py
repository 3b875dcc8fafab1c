"""The result of a thread comes when its Deferred was cancelled, and another one when the program has ended."""

import threading

from twisted.internet import reactor, task, threads

cancelled, ended = threading.Event(), threading.Event()
reactor.suggestThreadPoolSize(1)
late = threads.deferToThread(cancelled.wait, 60)
late.addErrback(lambda failure: print(failure.type.__name__))
reactor.callInThread(reactor.callFromThread, reactor.stop)  # by the same thread, when it has given the result
reactor.callLater(0.05, late.cancel)
task.deferLater(reactor, 0.1, threads.deferToThread, ended.wait, 60)
reactor.callLater(0.1, cancelled.set)
reactor.addSystemEventTrigger("before", "shutdown", ended.set)
reactor.run()
