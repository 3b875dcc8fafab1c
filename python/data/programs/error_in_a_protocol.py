"""What a protocol does with its first bytes fails, which the reactor logs, and the connection is lost."""

from twisted.internet import defer, endpoints, protocol, reactor


class Fails(protocol.Protocol):
    def dataReceived(self, data):
        raise ValueError(data.decode())


class Client(protocol.Protocol):
    def connectionMade(self):
        self.transport.write(b"no such verb")

    def connectionLost(self, reason):
        lost.callback(None)


lost = defer.Deferred()


@defer.inlineCallbacks
def main():
    factory = protocol.Factory.forProtocol(Fails)
    port = yield endpoints.TCP4ServerEndpoint(reactor, 0, interface="127.0.0.1").listen(factory)
    endpoint = endpoints.TCP4ClientEndpoint(reactor, "127.0.0.1", port.getHost().port)
    yield endpoints.connectProtocol(endpoint, Client())
    yield lost
    yield port.stopListening()


main().addErrback(lambda failure: failure.printTraceback()).addBoth(lambda _: reactor.stop())
reactor.run()
