"""A service of lines: each client has a loop that writes to it, and is hung up on where it is idle."""

from twisted.internet import defer, endpoints, protocol, reactor, task
from twisted.protocols.basic import LineReceiver
from twisted.protocols.policies import TimeoutMixin


class Service(LineReceiver, TimeoutMixin):
    def connectionMade(self):
        self.setTimeout(1)
        self.loop = task.LoopingCall(self.sendLine, b"still here")
        self.loop.start(0.2, now=False)

    def lineReceived(self, line):
        self.resetTimeout()
        answer = defer.Deferred()
        answer.addCallback(self.sendLine)
        reactor.callLater(0.01, answer.callback, b"you said " + line)

    def connectionLost(self, reason):
        self.setTimeout(None)
        self.loop.stop()


class Client(LineReceiver):
    def __init__(self, ended):
        self.ended = ended
        self.lines = 0

    def connectionMade(self):
        self.sendLine(b"hello")

    def lineReceived(self, line):
        self.lines += 1
        if self.lines == 2:
            self.sendLine(b"again")
        if self.lines == 4:
            self.transport.loseConnection()

    def connectionLost(self, reason):
        self.ended.callback(self.lines)


@defer.inlineCallbacks
def main():
    factory = protocol.Factory.forProtocol(Service)
    port = yield endpoints.TCP4ServerEndpoint(reactor, 0, interface="127.0.0.1").listen(factory)
    endpoint = endpoints.TCP4ClientEndpoint(reactor, "127.0.0.1", port.getHost().port)
    ended = [defer.Deferred() for _ in range(3)]
    for each in ended:
        yield endpoints.connectProtocol(endpoint, Client(each))
    print((yield defer.gatherResults(ended)))
    yield port.stopListening()


main().addErrback(lambda failure: failure.printTraceback()).addBoth(lambda _: reactor.stop())
reactor.run()
