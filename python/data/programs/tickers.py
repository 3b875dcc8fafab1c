"""Three Cooperators on a real reactor, whose ticks are due after different times. One is stopped with tasks that are paused and busy.

The reactor's time is its own: it goes on to what is due, so that nothing is late on a busy machine.
"""

from twisted.internet import reactor, task

passed = 0.0
iterate = reactor.doIteration


def seconds():
    return 1_000_000 + passed


def wait(most):
    """Nothing comes from elsewhere, so that all of the time passes that may."""
    global passed
    passed += most or 0
    iterate(0)


reactor.seconds = seconds
reactor.doIteration = wait


def work(steps):
    for _ in range(steps):
        yield None


def one_step():
    return lambda: True


slow = task.Cooperator(one_step, lambda tick: reactor.callLater(0.02, tick))
busy = task.Cooperator(one_step, lambda tick: reactor.callLater(0.003, tick))

task.cooperate(work(30))
done = slow.cooperate(work(4)).whenDone()
paused = busy.cooperate(work(5))
paused.pause()
for each in (paused, busy.cooperate(work(1_000_000))):
    each.whenDone().addErrback(lambda failure: print(failure.type.__name__))


def stop():
    busy.stop()
    paused.resume()


reactor.callLater(0.05, stop)
done.addBoth(lambda _: reactor.callLater(0.03, reactor.stop))
reactor.run()
