"""A web server and its client: a loop counts, one page comes late, and reading has a time-out."""

from twisted.internet import defer, reactor, task
from twisted.web import client, resource, server


class Page(resource.Resource):
    isLeaf = True

    def render_GET(self, request):
        if request.path == b"/late":
            task.deferLater(reactor, 0.05, self.finish, request)
            return server.NOT_DONE_YET
        return b"hello"

    def finish(self, request):
        request.write(b"at last")
        request.finish()


counted = []


@defer.inlineCallbacks
def main():
    port = reactor.listenTCP(0, server.Site(Page()), interface="127.0.0.1")
    loop = task.LoopingCall(counted.append, 1)
    ended = loop.start(0.25)
    agent = client.Agent(reactor)
    for path in ("/", "/late", "/"):
        response = yield agent.request(b"GET", f"http://127.0.0.1:{port.getHost().port}{path}".encode())
        print((yield client.readBody(response).addTimeout(5, reactor)))
    loop.stop()
    yield ended
    yield port.stopListening()


main().addErrback(lambda failure: failure.printTraceback()).addBoth(lambda _: reactor.stop())
reactor.run()
