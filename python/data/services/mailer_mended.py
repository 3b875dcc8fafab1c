"""A mailer with one worker, which is started when it has connected."""

from twisted.internet import defer, endpoints, reactor, task
from twisted.internet.protocol import Factory

from wire import Client, ServerFactory

END = None


class Relay(ServerFactory):
    """Takes letters, each of which needs a while."""

    def do_deliver(self, letter):
        return task.deferLater(reactor, 0.02, lambda: f"delivered {letter}")


class Mailer:
    """Sends the letters of a queue, one after the other."""

    def __init__(self):
        self.letters = defer.DeferredQueue()
        self.client = None

    def connected(self, client):
        self.client = client
        self.work()

    @defer.inlineCallbacks
    def work(self):
        while True:
            letter = yield self.letters.get()
            if letter is END:
                print("the worker ends")
                return
            said = yield self.client.ask("deliver", letter=letter)
            print(said)

    def stop(self):
        self.letters.put(END)


@defer.inlineCallbacks
def main():
    mailer = Mailer()
    port = yield endpoints.TCP4ServerEndpoint(reactor, 0, interface="127.0.0.1").listen(Relay())
    where = endpoints.TCP4ClientEndpoint(reactor, "127.0.0.1", port.getHost().port)
    mailer.connected((yield where.connect(Factory.forProtocol(Client))))
    for number in range(1, 6):
        mailer.letters.put(f"letter {number}")
        yield task.deferLater(reactor, 0.01, lambda: None)
    mailer.stop()
    yield task.deferLater(reactor, 0.2, lambda: None)
    reactor.stop()


reactor.callWhenRunning(main)
reactor.run()
