"""A server gives a connection up that is silent for a second: while a port is there, no wait is left out. The ten seconds after that are."""
import sys
import time

from twisted.internet import defer, protocol, reactor
from twisted.internet.endpoints import TCP4ClientEndpoint, TCP4ServerEndpoint, connectProtocol
from twisted.protocols.policies import TimeoutMixin

seen = []
monotonic = time.monotonic


class Silent(protocol.Protocol, TimeoutMixin):
    def connectionMade(self):
        self.setTimeout(1)


class Client(protocol.Protocol):
    def connectionLost(self, reason):
        seen.append("lost")
        ended.callback(None)


ended = defer.Deferred()


@defer.inlineCallbacks
def main():
    port = yield TCP4ServerEndpoint(reactor, 0, interface="127.0.0.1").listen(protocol.Factory.forProtocol(Silent))
    yield connectProtocol(TCP4ClientEndpoint(reactor, "127.0.0.1", port.getHost().port), Client())
    yield ended
    yield port.stopListening()
    reactor.callLater(10, reactor.stop)


reactor.callWhenRunning(main)
reactor.run()
print(seen)
sys.exit(seen != ["lost"])
