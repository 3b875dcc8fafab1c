"""Once stopListening's Deferred has fired no connection is accepted, and a client is refused. One that was made before stays."""
import sys

from twisted.internet import defer, error, protocol, reactor
from twisted.internet.endpoints import TCP4ClientEndpoint, TCP4ServerEndpoint, connectProtocol
from twisted.protocols.basic import LineReceiver

accepted, results = [], []


class Server(LineReceiver):
    def connectionMade(self):
        accepted.append(self)

    def lineReceived(self, line):
        self.sendLine(line)


class Client(LineReceiver):
    def __init__(self):
        self.answer = defer.Deferred()

    def lineReceived(self, line):
        self.answer.callback(line)


@defer.inlineCallbacks
def main():
    port = yield TCP4ServerEndpoint(reactor, 0, interface="127.0.0.1").listen(protocol.Factory.forProtocol(Server))
    where = TCP4ClientEndpoint(reactor, "127.0.0.1", port.getHost().port)
    client = yield connectProtocol(where, Client())
    client.sendLine(b"first")
    results.append((yield client.answer))
    yield port.stopListening()
    try:
        yield connectProtocol(where, Client())
        results.append("accepted")
    except error.ConnectionRefusedError:
        results.append("refused")
    client.answer = defer.Deferred()
    client.sendLine(b"second")
    results.append((yield client.answer))
    results.append(len(accepted))
    client.transport.loseConnection()
    reactor.stop()


reactor.callWhenRunning(main)
reactor.run()
print(results)
sys.exit(results != [b"first", "refused", b"second", 1])
