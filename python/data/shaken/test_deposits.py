"""Tests that are shaken: one that has a race, one that trial's janitor calls unclean if it isn't given its turns, one that
hangs if its job comes after its timer, and one that fails alone.
"""
import os
import time

from twisted.internet import defer, protocol, reactor, threads
from twisted.internet.endpoints import TCP4ClientEndpoint, TCP4ServerEndpoint, connectProtocol
from twisted.trial.unittest import TestCase


def later(seconds, f, *args):
    d = defer.Deferred()
    reactor.callLater(seconds, d.callback, None)
    return d.addCallback(lambda _: f(*args))


class DepositTest(TestCase):
    def setUp(self):
        self.stored = 100

    def load(self):
        time.sleep(0.001)
        return self.stored

    @defer.inlineCallbacks
    def deposit(self, amount):
        balance = yield threads.deferToThread(self.load)
        yield threads.deferToThread(time.sleep, 0.001)
        self.stored = balance + amount

    @defer.inlineCallbacks
    def test_two(self):
        open("written", "w").close()
        yield defer.gatherResults([self.deposit(10), later(0.5, self.deposit, 20)])
        self.assertEqual(self.stored, 130)


class ConnectionTest(TestCase):
    @defer.inlineCallbacks
    def test_closed_at_the_end(self):
        port = yield TCP4ServerEndpoint(reactor, 0, interface="127.0.0.1").listen(protocol.Factory.forProtocol(protocol.Protocol))
        client = yield connectProtocol(TCP4ClientEndpoint(reactor, "127.0.0.1", port.getHost().port), protocol.Protocol())
        client.transport.write(b"hello")
        client.transport.loseConnection()
        yield port.stopListening()


class HangingTest(TestCase):
    def test_hangs(self):
        done = defer.Deferred()
        timer = reactor.callLater(0.3, lambda: None)
        threads.deferToThread(time.sleep, 0.002).addCallback(lambda _: timer.cancel() or done.callback(None) if timer.active() else None)
        return done


class WrongTest(TestCase):
    def test_wrong(self):
        self.assertFalse(os.path.exists("written"), "the folder is another one")
        self.fail("it is wrong")
