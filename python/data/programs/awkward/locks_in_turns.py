"""Each turn of a LoopingCall makes a lock and a queue of its own: in the script the second ones have the names of the first."""

from twisted.internet import defer, task


def turn():
    """Takes a lock, and hands it through a queue."""
    lock, queue = defer.DeferredLock(), defer.DeferredQueue()
    lock.acquire().addCallback(lambda lock: queue.put([lock]))
    queue.get().addCallback(lambda items: items[0])


clock = task.Clock()
loop = task.LoopingCall(turn)
loop.clock = clock
loop.start(1)
clock.advance(1)
loop.stop()
