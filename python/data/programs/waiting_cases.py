"""Tests that wait for a reactor: in `setUp`, in the test, in `tearDown` and in a cleanup."""

from twisted.internet import defer, protocol, reactor, task
from twisted.trial import unittest


class Echo(protocol.Protocol):
    def dataReceived(self, data):
        self.transport.write(data)


class Asks(protocol.Protocol):
    def __init__(self, answer):
        self.answer = answer

    def connectionMade(self):
        self.transport.write(b"ping")

    def dataReceived(self, data):
        self.answer.callback(data)
        self.transport.loseConnection()


class WaitingCase(unittest.TestCase):
    timeout = 60

    def setUp(self):
        print("set up")
        self.port = reactor.listenTCP(0, protocol.Factory.forProtocol(Echo), interface="127.0.0.1")
        self.addCleanup(self.clean, "cleaned")
        return task.deferLater(reactor, 0.05, print, "ready")

    def tearDown(self):
        print("tear down")
        return self.port.stopListening()

    def clean(self, text):
        return task.deferLater(reactor, 0.05, print, text)

    @defer.inlineCallbacks
    def test_answer(self):
        creator = protocol.ClientCreator(reactor, Asks, defer.Deferred())
        client = yield creator.connectTCP("127.0.0.1", self.port.getHost().port)
        self.assertEqual((yield client.answer), b"ping")
        print("answered")

    def test_failure(self):
        failing = defer.Deferred()
        reactor.callLater(0.05, failing.errback, ValueError("no answer"))
        return failing

    def test_no_answer(self):
        return defer.Deferred().addErrback(self.tell)

    def tell(self, failure):
        print(failure.type.__name__)
        return failure

    test_no_answer.timeout = 0.2

    def test_at_once(self):
        return defer.succeed(1).addCallback(print)

    def test_generator(self):
        yield defer.succeed(1)


class VirtualCase(unittest.TestCase):
    def test_time(self):
        return task.deferLater(reactor, 3600, print, "an hour")

    def test_sockets(self):
        reactor.listenTCP(0, protocol.Factory())
