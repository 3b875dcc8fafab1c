"""Schedules calls, moves and cancels them, sets time-outs, and has threads post and do jobs, as a seed says: the word is the seed.

Its times are short and close to each other, and all that it begins ends by itself.
"""

import random
import sys

from twisted.internet import defer, reactor, task, threads

choose = random.Random(int(sys.argv[1]))
left = 60
calls = []
waiting = []
ended = defer.Deferred()


def short():
    """A time of some milliseconds."""
    return choose.choice([0, 0.001, 0.002, 0.005, 0.01, 0.02]) + choose.choice([0, choose.random() / 200])


def active():
    """A call that waits, if there is one."""
    calls[:] = [call for call in calls if call.active()]
    return choose.choice(calls) if calls else None


def later():
    calls.append(reactor.callLater(short(), act))


def move():
    call = active()
    if call is not None:
        choose.choice([call.reset, call.delay])(short())


def cancel():
    call = active()
    if call is not None and len(calls) > 3:
        call.cancel()


def time_out():
    late = defer.Deferred()
    late.addTimeout(short(), reactor)
    late.addErrback(lambda failure: failure.trap(defer.TimeoutError) and act())
    waiting.append(late)


def fire():
    if waiting:
        late = waiting.pop(choose.randrange(len(waiting)))
        if not late.called:
            late.callback(1)


def post():
    reactor.callInThread(reactor.callFromThread, act)


def job():
    threads.deferToThread(choose.randrange, 9).addCallback(lambda value: act())


def sleep():
    task.deferLater(reactor, short()).addCallback(lambda nothing: act())


def act():
    global left
    left -= 1
    if left == 0:
        ended.callback(None)
    if left > 0:
        for each in choose.choices([later, move, cancel, time_out, fire, post, job, sleep], [6, 4, 1, 3, 2, 2, 1, 2], k=2):
            each()


def start():
    for _ in range(6):
        later()
    reactor.callLater(0.5, lambda: ended.called or ended.callback(None))


ended.addBoth(lambda nothing: reactor.stop())
reactor.callWhenRunning(start)
reactor.run()
