"""A callback that makes the next Deferred and adds itself to it, as where a stream is read piece by piece."""

from twisted.internet import defer

left = [2_000]
waiting = []


def read(_):
    """Asks for the next piece, if there is one."""
    left[0] -= 1
    if left[0]:
        waiting.append(defer.Deferred().addCallback(read))


defer.succeed(None).addCallback(read)
while waiting:
    waiting.pop().callback(None)
