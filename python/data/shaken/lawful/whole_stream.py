"""TCP brings each byte once and in order, both ways at once, with producers that are paused; the loss comes after all that was sent."""
import sys
import zlib

from twisted.internet import protocol, reactor
from twisted.internet.endpoints import TCP4ClientEndpoint, TCP4ServerEndpoint, connectProtocol

SENT = b"".join(b"%d," % number for number in range(30000))
ended = {}


class Peer(protocol.Protocol):
    def connectionMade(self):
        self.got, self.left, self.is_lost = [], [SENT[place : place + 9973] for place in range(0, len(SENT), 9973)], False
        self.transport.bufferSize = 5000
        self.transport.registerProducer(self, True)
        self.resumeProducing()

    def resumeProducing(self):
        self.is_paused = False
        while self.left and not self.is_paused:
            self.transport.write(self.left.pop(0))
        if not self.left:
            self.transport.unregisterProducer()
            self.transport.loseWriteConnection()

    def pauseProducing(self):
        self.is_paused = True

    def stopProducing(self):
        pass

    def dataReceived(self, data):
        assert data and len(data) <= 5000 and not self.is_lost
        self.got.append(data)
        if len(self.got) % 7 == 3:
            self.transport.pauseProducing()
            reactor.callLater(0.0005, self.transport.resumeProducing)

    def connectionLost(self, reason):
        self.is_lost = True
        ended[type(self).__name__] = zlib.crc32(b"".join(self.got)), self.transport.bufferSize
        if len(ended) == 2:
            reactor.stop()


class Server(Peer):
    pass


class Client(Peer):
    pass


def main():
    endpoint = TCP4ServerEndpoint(reactor, 0, interface="127.0.0.1")
    endpoint.listen(protocol.Factory.forProtocol(Server)).addCallback(
        lambda port: connectProtocol(TCP4ClientEndpoint(reactor, "127.0.0.1", port.getHost().port), Client())
    )


reactor.callWhenRunning(main)
reactor.run()
print(ended)
sys.exit(ended != dict.fromkeys(("Server", "Client"), (zlib.crc32(SENT), 5000)))
