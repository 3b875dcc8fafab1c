"""Each of several connections that are made at once has its own lines, made before them and lost after them, once."""
import sys

from twisted.internet import defer, protocol, reactor
from twisted.internet.endpoints import TCP4ClientEndpoint, TCP4ServerEndpoint, connectProtocol
from twisted.protocols.basic import LineReceiver

steps = {}


class Echo(LineReceiver):
    def lineReceived(self, line):
        self.sendLine(line)
        if line.endswith(b"end"):
            self.transport.loseConnection()


class Client(LineReceiver):
    def __init__(self, name):
        self.steps = steps.setdefault(name, [])
        self.name = name
        self.over = defer.Deferred()

    def connectionMade(self):
        self.steps.append("made")
        for word in (b"one", b"two", b"end"):
            self.sendLine(b"%d %s" % (self.name, word))

    def lineReceived(self, line):
        self.steps.append(line)

    def connectionLost(self, reason):
        self.steps.append("lost")
        self.over.callback(None)


@defer.inlineCallbacks
def main():
    port = yield TCP4ServerEndpoint(reactor, 0, interface="127.0.0.1").listen(protocol.Factory.forProtocol(Echo))
    where = TCP4ClientEndpoint(reactor, "127.0.0.1", port.getHost().port)
    clients = [Client(number) for number in range(8)]
    yield defer.gatherResults([connectProtocol(where, client) for client in clients])
    yield defer.gatherResults([client.over for client in clients])
    yield port.stopListening()
    reactor.stop()


reactor.callWhenRunning(main)
reactor.run()
expected = {n: ["made", b"%d one" % n, b"%d two" % n, b"%d end" % n, "lost"] for n in range(8)}
print(steps == expected, steps)
sys.exit(steps != expected)
