"""A client connects again when its connection is lost. What is sent meanwhile goes to the old connection, and is lost."""
import sys

from twisted.internet import endpoints, protocol, reactor
from twisted.protocols.basic import LineReceiver

got = []
servers = []


class Server(LineReceiver):
    def connectionMade(self):
        servers.append(self)

    def lineReceived(self, line):
        got.append(line)


class Client(LineReceiver):
    def connectionMade(self):
        link["client"] = self

    def connectionLost(self, reason):
        if reactor.running and len(servers) < 3:
            link["again"]()


link = {}


def send(line):
    link["client"].sendLine(line)


def connect(port):
    where = endpoints.TCP4ClientEndpoint(reactor, "127.0.0.1", port.getHost().port)
    link["again"] = lambda: endpoints.connectProtocol(where, Client())
    link["again"]()
    reactor.callLater(0.12, send, b"one")
    reactor.callLater(0.21, lambda: servers[0].transport.loseConnection())
    reactor.callLater(0.28, send, b"two")
    reactor.callLater(0.44, reactor.stop)


def main():
    endpoint = endpoints.TCP4ServerEndpoint(reactor, 0, interface="127.0.0.1")
    endpoint.listen(protocol.Factory.forProtocol(Server)).addCallback(connect)


reactor.callWhenRunning(main)
reactor.run()
print(got)
sys.exit(got != [b"one", b"two"])
