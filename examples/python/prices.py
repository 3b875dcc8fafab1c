"""A shop and its supplier, who tells prices over one connection on loopback: what lost_answer.py and lost_answer_mended.py share."""

from twisted.internet import defer, protocol, reactor, task
from twisted.protocols.basic import LineOnlyReceiver

#: the answer of the supplier for each good, and how many seconds it takes
ANSWERS = {
    "tea": ("tea costs 3", 0.02),
    "coffee": ("coffee costs 5", 1.0),
    "milk": ("milk costs 1", 0.02),
    "sugar": ("sugar costs 2", 0.02),
}

#: within how many seconds an answer has to come, and how long after the first customer the second one comes
LIMIT = 0.5
LATER = 0.7


class Supplier(LineOnlyReceiver):
    """Answers questions in their order, each after a while."""

    def connectionMade(self):
        """Nobody has asked yet."""
        self.turn = defer.DeferredLock()

    def lineReceived(self, line):
        """Answers when it is this question's turn."""
        self.turn.run(self.answer, line.decode())

    def answer(self, good):
        """Sends the price."""
        answer, seconds = ANSWERS[good]
        return task.deferLater(reactor, seconds, self.sendLine, answer.encode())


@defer.inlineCallbacks
def price(client, good):
    """Asks for a price, and prints the answer."""
    answer = yield client.ask(good)
    print(f"asked for {good}: {answer}")
    return answer


@defer.inlineCallbacks
def serve_customers(client):
    """One customer wants tea and coffee, and later another wants milk and sugar."""
    yield defer.gatherResults([price(client, "tea"), price(client, "coffee")])
    yield task.deferLater(reactor, LATER, lambda: None)
    yield defer.gatherResults([price(client, "milk"), price(client, "sugar")])


@defer.inlineCallbacks
def shop(client_class):
    """Connects a client with the supplier, serves the customers, and ends."""
    listening = reactor.listenTCP(0, protocol.Factory.forProtocol(Supplier), interface="127.0.0.1")
    creator = protocol.ClientCreator(reactor, client_class)
    client = yield creator.connectTCP("127.0.0.1", listening.getHost().port)
    yield serve_customers(client)
    client.transport.loseConnection()
    yield listening.stopListening()
    reactor.stop()


def run(client_class):
    """Runs the shop with such a client."""
    reactor.callWhenRunning(shop, client_class)
    reactor.run()
