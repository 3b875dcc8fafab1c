"""A callback that makes the next Deferred and adds itself to that, 45 times, as who reads a stream piece by piece does."""

from twisted.internet import defer

left = [45]
waiting = []


def piece(_):
    left[0] -= 1
    if left[0]:
        following = defer.Deferred()
        waiting.append(following)
        following.addCallback(piece)


first = defer.Deferred().addCallback(piece)
first.callback(None)
while waiting:
    waiting.pop().callback(None)
