"""A crawler with a pool of two connections, each given back when its answer has come, however late."""

from twisted.internet import defer, endpoints, task
from twisted.internet.protocol import Factory

from wire import Client, ServerFactory

CONNECTIONS = 2
PAGES = ["/", "/news", "/archive", "/about", "/jobs", "/search", "/map", "/help"]
SLOW = {"/archive": 0.25, "/search": 0.3}


class Web(ServerFactory):
    """Has pages, some of which take long."""

    def __init__(self, reactor):
        self.reactor = reactor

    def do_get(self, path):
        return task.deferLater(self.reactor, SLOW.get(path, 0.01), self.page, path)

    def page(self, path):
        return f"the page {path}"


class Crawler:
    """Fetches pages, each over a connection that nothing else uses meanwhile."""

    def __init__(self, reactor):
        self.reactor = reactor
        self.idle = defer.DeferredQueue()
        self.pages = {}

    @defer.inlineCallbacks
    def connect(self, where):
        for _ in range(CONNECTIONS):
            client = yield where.connect(Factory.forProtocol(Client))
            self.idle.put(client)

    def get(self, client, path):
        answer = client.ask("get", path=path)
        answer.addTimeout(0.1, self.reactor)
        return answer

    @defer.inlineCallbacks
    def fetch(self, path):
        client = yield self.idle.get()
        try:
            page = yield self.get(client, path)
        except defer.TimeoutError:
            print(f"{path}: no answer in time")
        else:
            self.pages[path] = page
        finally:
            self.idle.put(client)

    def report(self):
        missing = [path for path in PAGES if path not in self.pages]
        print(f"{len(self.pages)} pages; missing: {', '.join(missing) or 'none'}")


@defer.inlineCallbacks
def main(reactor):
    port = yield endpoints.TCP4ServerEndpoint(reactor, 0, interface="127.0.0.1").listen(Web(reactor))
    where = endpoints.TCP4ClientEndpoint(reactor, "127.0.0.1", port.getHost().port)
    crawler = Crawler(reactor)
    yield crawler.connect(where)
    for path in PAGES:
        crawler.fetch(path)
        yield task.deferLater(reactor, 0.015, lambda: None)
    yield task.deferLater(reactor, 0.5, lambda: None)
    crawler.report()


if __name__ == "__main__":
    task.react(main)
