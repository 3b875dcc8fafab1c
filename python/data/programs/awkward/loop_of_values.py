"""LoopingCalls whose functions give values: one the same in each turn, and one a Failure that ends it."""

from twisted.internet import defer, task


def start(function):
    """Starts a LoopingCall on a clock of its own."""
    loop = task.LoopingCall(function)
    loop.clock = clock
    loop.start(1).addErrback(lambda failure: print("failed:", failure.type.__name__))
    return loop


clock = task.Clock()
same = start(lambda: [3, "turn"])
start(lambda: defer.fail(ValueError("no")))
clock.advance(1)
same.stop()
