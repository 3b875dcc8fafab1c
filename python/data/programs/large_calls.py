"""Has eight delayed calls come on the real reactor, one after the other, each of which makes forty Deferreds with a large value."""

from twisted.internet import defer, reactor


def make(left):
    for _ in range(40):
        defer.succeed(["A" * 200] * 190)
    if left == 0:
        reactor.stop()
    else:
        reactor.callLater(0.02, make, left - 1)


reactor.callLater(0.02, make, 7)
reactor.run()
