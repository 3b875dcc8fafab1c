"""Answers requests in several turns of the reactor, by inline bodies, a task, a job and calls. Then it prints `idle`, and waits.

With an argument it ends after so many seconds more.
"""

import sys

from twisted.internet import defer, reactor, task, threads

queue = defer.DeferredQueue()
lock = defer.DeferredLock()
never = defer.Deferred()


@defer.inlineCallbacks
def worker():
    while True:
        number, answer = yield queue.get()
        yield task.deferLater(reactor, 0.001, lambda: None)
        try:
            value = yield lock.run(lambda: number // (number % 7))
        except ZeroDivisionError as error:
            answer.errback(error)
        else:
            answer.callback(value)


async def ask(number):
    answer = defer.Deferred()
    queue.put((number, answer))
    try:
        return await answer
    except ZeroDivisionError:
        return f"no answer for {number}"


def steps():
    for number in range(3):
        yield defer.ensureDeferred(ask(number))


@defer.inlineCallbacks
def main():
    for number in range(5, 9):
        value = yield defer.ensureDeferred(ask(number))
        print(value)
    results = yield defer.DeferredList([task.coiterate(steps()), threads.deferToThread(lambda: 7), defer.succeed([None, "a"])])
    print(results[1])
    call = reactor.callLater(60, never.callback, None)
    call.delay(60)
    call.reset(50)
    print("idle", flush=True)
    if sys.argv[1:]:
        reactor.callLater(float(sys.argv[1]), reactor.stop)


worker()
worker().addErrback(lambda failure: None)
reactor.callLater(0, main)
reactor.run()
