"""A pool of connections: requests time out while they wait or while they are answered, and are tried again.

    ./record --virtual -o examples/python/connection_pool examples/python/connection_pool.py

The network is a function that answers after a while; nothing else here knows that it isn't real.
"""

from twisted.internet import defer, reactor


class ServerError(Exception):
    """The server answered, and not with the page."""


#: how long the server takes for each attempt, and what it answers
ANSWERS = {
    "/index": [(1, "200 index")],
    "/slow": [(9, "200 slow"), (2, "200 slow, at last")],
    "/flaky": [(1, ServerError("503")), (1, "200 flaky")],
    "/gone": [(1, ServerError("404")), (1, ServerError("404")), (1, ServerError("404"))],
}


def send(path):
    """Sends a request, whose answer comes after a while; a cancel hangs up."""
    delay, answer = ANSWERS[path].pop(0)
    reply = defer.Deferred(lambda _: call.cancel())
    if isinstance(answer, Exception):
        call = reactor.callLater(delay, reply.errback, answer)
    else:
        call = reactor.callLater(delay, reply.callback, answer)
    return reply


def within(seconds, work):
    """The work, which is cancelled when it takes longer."""
    deadline = reactor.callLater(seconds, work.cancel)

    def in_time(result):
        if deadline.active():
            deadline.cancel()
        return result

    return work.addBoth(in_time)


class Pool:
    """Two connections for all that ask, with three attempts a request."""

    def __init__(self):
        self.connections = defer.DeferredSemaphore(2)

    @defer.inlineCallbacks
    def get(self, path):
        """The page of a path."""
        for attempt in (1, 2, 3):
            try:
                page = yield within(4, self.connections.run(send, path))
            except defer.CancelledError:
                print(f"{path}: attempt {attempt} timed out")
            except ServerError as error:
                print(f"{path}: attempt {attempt} was answered with {error}")
            else:
                return page
            wait = defer.Deferred()
            reactor.callLater(attempt, wait.callback, None)
            yield wait
        raise ServerError(f"{path} can't be had")


def main():
    """Asks for four pages at once, and prints what came of them."""
    pool = Pool()
    pages = [pool.get(path) for path in ANSWERS]
    everything = defer.DeferredList(pages, consumeErrors=True)
    everything.addCallback(show)
    everything.addBoth(lambda _: reactor.stop())
    reactor.run()


def show(results):
    """Prints how many pages came."""
    came = [page for success, page in results if success]
    print(f"{len(came)} of {len(results)} pages: {came}")


if __name__ == "__main__":
    main()
