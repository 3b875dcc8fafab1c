"""A server of asyncio's answers by Deferreds a client of Twisted's. The program runs the loop itself, and the reactor is only started."""

import asyncio

from twisted.internet import asyncioreactor


async def main():
    loop = asyncio.get_running_loop()
    asyncioreactor.install(loop)
    from twisted.internet import defer, endpoints, protocol, reactor

    reactor.startRunning()

    class Client(protocol.Protocol):
        def connectionMade(self):
            self.answer = defer.Deferred()

        def ask(self, line):
            self.transport.write(line)
            return self.answer

        def dataReceived(self, data):
            answer, self.answer = self.answer, defer.Deferred()
            answer.callback(data)

    async def serve(reader, writer):
        while line := await reader.readline():
            answer = defer.Deferred()
            answer.addTimeout(0.02 if line == b"slow\n" else 60, reactor)
            answer.addErrback(lambda failure: failure.trap(defer.TimeoutError) and b"too late")
            if line != b"slow\n":
                reactor.callLater(0.01, answer.callback, line.upper())
            writer.write(await answer.asFuture(loop))
        writer.close()

    server = await asyncio.start_server(serve, "127.0.0.1", 0)
    endpoint = endpoints.TCP4ClientEndpoint(reactor, "127.0.0.1", server.sockets[0].getsockname()[1])
    client = await endpoints.connectProtocol(endpoint, Client()).asFuture(loop)
    for line in (b"one\n", b"slow\n", b"three\n"):
        print(await client.ask(line).asFuture(loop))
    client.transport.loseConnection()
    server.close()


asyncio.run(main())
