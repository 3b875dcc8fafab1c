"""A server that answers each line a little later, and a client that asks it twelve times, beside an inline body that waits."""

from twisted.internet import defer, protocol, reactor, task
from twisted.protocols import basic


class Echo(basic.LineReceiver):
    def lineReceived(self, line):
        task.deferLater(reactor, 0.01, lambda: line).addCallback(self.sendLine)


class Asking(basic.LineReceiver):
    left = 12

    def connectionMade(self):
        self.ask()

    def ask(self):
        self.answer = defer.Deferred().addTimeout(30, reactor).addBoth(self.answered)
        self.sendLine(b"line %d" % self.left)

    def answered(self, answer):
        self.left -= 1
        if self.left:
            reactor.callLater(0.005, self.ask)
        else:
            self.transport.loseConnection()
            reactor.callLater(0.05, reactor.stop)

    def lineReceived(self, line):
        self.answer.callback(line)


@defer.inlineCallbacks
def work():
    for number in range(8):
        yield task.deferLater(reactor, 0.01, lambda: number)


server = protocol.ServerFactory()
server.protocol = Echo
port = reactor.listenTCP(0, server, interface="127.0.0.1")
client = protocol.ClientFactory()
client.protocol = Asking
reactor.connectTCP("127.0.0.1", port.getHost().port, client)
work()
reactor.run()
