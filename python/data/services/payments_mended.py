"""A till that charges cards, and waits for the answer, however late it is."""

import random

from twisted.internet import defer, endpoints, task
from twisted.internet.protocol import Factory

from wire import Client, RemoteError, ServerFactory

random.seed(11)
SLOW = {"card-6"}


class Bank(ServerFactory):
    def __init__(self, reactor):
        self.reactor = reactor
        self.charges = []

    def do_charge(self, card, pence):
        seconds = random.uniform(0.01, 0.05)
        if card in SLOW:
            SLOW.discard(card)
            seconds = 0.19
        return task.deferLater(self.reactor, seconds, self.charge, card, pence)

    def charge(self, card, pence):
        self.charges.append((card, pence))
        return f"receipt-{len(self.charges)} {card} {pence}"

    def do_total(self):
        return sum(pence for _, pence in self.charges)


class GivenUp(Exception):
    pass


class Till:
    def __init__(self, reactor, bank):
        self.reactor = reactor
        self.bank = bank
        self.lock = defer.DeferredLock()

    async def charge(self, card, pence, attempts=3):
        for attempt in range(1, attempts + 1):
            late = self.reactor.callLater(0.12, print, f"{card}: attempt {attempt} takes long")
            try:
                return await self.bank.ask("charge", card=card, pence=pence)
            except RemoteError as error:
                print(f"{card}: {error}")
            finally:
                if late.active():
                    late.cancel()
            await task.deferLater(self.reactor, 0.02 * attempt, lambda: None)
        raise GivenUp(card)

    @defer.inlineCallbacks
    def sale(self, number, card, items):
        pence = sum(price for _, price in items)
        yield task.deferLater(self.reactor, 0.01 * (number % 3), lambda: None)
        receipt = yield defer.ensureDeferred(self.charge(card, pence))
        yield self.lock.run(self.printed, number, receipt)
        return receipt

    def printed(self, number, receipt):
        return task.deferLater(self.reactor, 0.004, print, f"sale {number}: {receipt}")


async def main(reactor):
    bank = Bank(reactor)
    port = await endpoints.TCP4ServerEndpoint(reactor, 0, interface="127.0.0.1").listen(bank)
    where = endpoints.TCP4ClientEndpoint(reactor, "127.0.0.1", port.getHost().port)
    client = await where.connect(Factory.forProtocol(Client))
    till = Till(reactor, client)
    sales = []
    for number in range(1, 13):
        items = [(f"item-{number}-{k}", 100 * k + number) for k in range(1, 3)]
        sales.append(till.sale(number, f"card-{number}", items))
        await task.deferLater(reactor, 0.015, lambda: None)
    receipts = await defer.gatherResults(sales)
    total = await client.ask("total")
    print(f"{len(receipts)} receipts; the bank has {total}, the till {sum(int(r.split()[-1]) for r in receipts)}")


if __name__ == "__main__":
    task.react(lambda reactor: defer.ensureDeferred(main(reactor)))
