"""What was written to a UNIX socket is read at the reactor's next look: before a delayed call that was asked for after the write."""
import os
import sys
import tempfile

from twisted.internet import defer, protocol, reactor
from twisted.internet.endpoints import UNIXClientEndpoint, UNIXServerEndpoint, connectProtocol

got, seen = [], []
made = defer.Deferred()
room = tempfile.TemporaryDirectory()
path = os.path.join(room.name, "s")


class Server(protocol.Protocol):
    def connectionMade(self):
        made.callback(None)

    def dataReceived(self, data):
        got.append(data)


def write(client, message):
    client.transport.socket.send(message)  # (to the system at once, and not in the transport's turn)
    reactor.callLater(0.003, look_for, message)


def look_for(message):
    seen.append(message in b"".join(got))
    if len(seen) == 4:
        reactor.stop()


@defer.inlineCallbacks
def main():
    yield UNIXServerEndpoint(reactor, path).listen(protocol.Factory.forProtocol(Server))
    client = yield connectProtocol(UNIXClientEndpoint(reactor, path), protocol.Protocol())
    yield made
    for number in range(4):
        reactor.callLater(0.01 * number, write, client, b"message %d" % number)


reactor.callWhenRunning(main)
reactor.run()
print(got, seen)
sys.exit(seen != [True] * 4)
