"""A reader of feeds that tries again, unless a reader has closed the feed."""

from twisted.internet import defer, endpoints, task
from twisted.internet.protocol import Factory

from wire import Client, RemoteError, ServerFactory

FEEDS = ["news", "weather", "sport", "stocks", "chess"]
DOWN = {"stocks"}


class Publisher(ServerFactory):
    """Has feeds, some of which are down."""

    def __init__(self, reactor):
        self.reactor = reactor
        self.asked = []

    def do_read(self, feed):
        self.asked.append(feed)
        return task.deferLater(self.reactor, 0.03, self.read, feed)

    def read(self, feed):
        if feed in DOWN:
            raise ValueError(f"{feed} is down")
        return f"{feed}: {len(feed)} lines"


class Reader:
    """Reads feeds, each up to five times."""

    def __init__(self, reactor, client):
        self.reactor = reactor
        self.client = client

    @defer.inlineCallbacks
    def read(self, feed):
        for attempt in range(1, 6):
            try:
                return (yield self.client.ask("read", feed=feed))
            except RemoteError as error:
                print(f"{feed}, attempt {attempt}: {error!r}")
            yield task.deferLater(self.reactor, 0.02, lambda: None)
        raise RemoteError(feed)


def tell(outcome, feed):
    print(f"{feed}: {outcome if isinstance(outcome, str) else outcome.value!r}")


async def main(reactor):
    publisher = Publisher(reactor)
    port = await endpoints.TCP4ServerEndpoint(reactor, 0, interface="127.0.0.1").listen(publisher)
    where = endpoints.TCP4ClientEndpoint(reactor, "127.0.0.1", port.getHost().port)
    reader = Reader(reactor, await where.connect(Factory.forProtocol(Client)))
    reading = {}
    for feed in FEEDS:
        reading[feed] = reader.read(feed)
        reading[feed].addBoth(tell, feed)
    await task.deferLater(reactor, 0.07, lambda: None)
    reading["stocks"].cancel()
    await task.deferLater(reactor, 0.3, lambda: None)
    print(f"stocks was asked for {publisher.asked.count('stocks')} times")


if __name__ == "__main__":
    task.react(lambda reactor: defer.ensureDeferred(main(reactor)))
