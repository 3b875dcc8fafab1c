"""A service of keys and values, a line a request, and a client that sends several at once, each with a time-out."""

from collections import deque

from twisted.internet import defer, endpoints, protocol, reactor, task
from twisted.protocols.basic import LineReceiver
from twisted.protocols.policies import TimeoutMixin


class Service(LineReceiver, TimeoutMixin):
    def connectionMade(self):
        self.setTimeout(5)

    def lineReceived(self, line):
        self.resetTimeout()
        verb, _, rest = line.decode().partition(" ")
        answer = defer.maybeDeferred(getattr(self, f"do_{verb}", self.unknown), rest)
        answer.addCallback(lambda value: self.sendLine(f"OK {value}".encode()))
        answer.addErrback(lambda failure: self.sendLine(f"ERR {failure.getErrorMessage()}".encode()))

    def do_SET(self, rest):
        key, _, value = rest.partition(" ")
        self.factory.values[key] = value
        return "stored"

    def do_GET(self, key):
        return self.factory.values[key]

    def do_WAIT(self, seconds):
        return task.deferLater(reactor, float(seconds), lambda: "at last")

    def unknown(self, rest):
        raise ValueError("no such verb")

    def connectionLost(self, reason):
        self.setTimeout(None)


class Client(LineReceiver):
    def __init__(self):
        self.asked = deque()

    def ask(self, line, seconds=10.0):
        answer = defer.Deferred()
        self.asked.append(answer)
        self.sendLine(line.encode())
        return answer.addTimeout(seconds, reactor)

    def lineReceived(self, line):
        status, _, rest = line.decode().partition(" ")
        answer = self.asked.popleft()
        if status == "OK":
            answer.callback(rest)
        else:
            answer.errback(RuntimeError(rest))

    def connectionLost(self, reason):
        while self.asked:
            self.asked.popleft().errback(reason)


@defer.inlineCallbacks
def main():
    factory = protocol.Factory.forProtocol(Service)
    factory.values = {}
    port = yield endpoints.TCP4ServerEndpoint(reactor, 0, interface="127.0.0.1").listen(factory)
    endpoint = endpoints.TCP4ClientEndpoint(reactor, "127.0.0.1", port.getHost().port)
    client = yield endpoints.connectProtocol(endpoint, Client())
    print((yield client.ask("SET a 1")))
    answers = yield defer.DeferredList([client.ask("GET a"), client.ask("GET b"), client.ask("NOPE")], consumeErrors=True)
    for success, value in answers:
        print(success, value if success else value.getErrorMessage())
    try:
        yield client.ask("WAIT 2", seconds=0.1)
    except defer.TimeoutError:
        print("timed out")
    print((yield client.ask("GET a")))
    client.transport.loseConnection()
    yield port.stopListening()


main().addErrback(lambda failure: failure.printTraceback()).addBoth(lambda _: reactor.stop())
reactor.run()
