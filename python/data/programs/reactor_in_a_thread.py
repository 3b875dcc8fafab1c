"""The reactor runs in a thread of its own, as crochet has it do, and the main thread asks it for results. The word says how all ends.

| The word | What happens |
|---|---|
| `stops` | the reactor is stopped once the main thread has ended |
| `daemon` | Python ends while the reactor runs |
| `waits` | the main thread makes a file, and waits for a signal |
| `exits` | the main thread ends the process by itself |
| `busy` | the reactor starts while a callback of the main thread waits for it |
| `shared` | the main thread fires a Deferred of the reactor's |
"""

import os
import sys
import threading
import time

from twisted.internet import defer, reactor, task, threads

how = sys.argv[1]
main = threading.main_thread()
is_daemon = how != "stops"


def watch():
    """Stops the reactor when the main thread has ended."""
    while main.is_alive():
        time.sleep(0.01)
    reactor.callFromThread(reactor.stop)


def start(nothing=None):
    running = threading.Event()
    reactor.callWhenRunning(running.set)
    threading.Thread(target=reactor.run, args=(False,), daemon=is_daemon).start()
    threading.Thread(target=watch, daemon=is_daemon).start()
    running.wait()


def ask(function, *args):
    return threads.blockingCallFromThread(reactor, function, *args)


def doubled(number):
    late = task.deferLater(reactor, 0.01, lambda: number * 2)
    late.addTimeout(60, reactor)
    return late


def fails():
    print("asked", "in the reactor's thread")
    return defer.fail(ValueError("no"))


early = defer.Deferred()
early.addCallback(print)
if how == "busy":
    early.addCallback(start)
    early.callback("early")
else:
    early.callback("early")
    start()

print(ask(doubled, 4), ask(threads.deferToThread, len, "seven.."))
try:
    ask(fails)
except ValueError as error:
    print(repr(error))
alone = defer.succeed("alone")
alone.addCallback(print)
if how == "shared":
    left = []
    reactor.callFromThread(lambda: left.append(defer.Deferred()))
    ask(doubled, 1)
    left[0].callback("from the main thread")
if how == "waits":
    open(sys.argv[2], "w").close()
    while True:
        time.sleep(0.1)
if how == "exits":
    os._exit(5)
sys.exit(3)
