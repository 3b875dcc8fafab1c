"""A shop front that reserves goods at a warehouse, and books couriers: real TCP on the loopback (each answer is taken)."""

import random

from twisted.internet import defer, endpoints, task
from twisted.internet.protocol import Factory

from wire_mended import Client, RemoteError, ServerFactory

random.seed(7)
STOCK = {"tea": 40, "coffee": 12, "milk": 30, "sugar": 9, "salt": 3, "rice": 50}


class Warehouse(ServerFactory):
    def __init__(self, reactor):
        self.reactor = reactor
        self.stock = dict(STOCK)

    async def pause(self):
        await task.deferLater(self.reactor, random.uniform(0.005, 0.03), lambda: None)

    def do_stock(self, item):
        return task.deferLater(self.reactor, 0.01, self.stock.get, item, 0)

    def do_reserve(self, item, count):
        return defer.ensureDeferred(self.reserve(item, count))

    async def reserve(self, item, count):
        await self.pause()
        if item not in self.stock:
            raise KeyError(item)
        got = min(count, self.stock[item])
        self.stock[item] -= got
        if 0 < got < count:
            return {"status": "partial", "value": got}
        if got == 0:
            raise ValueError(f"no {item} left")
        return got


class Couriers(ServerFactory):
    def __init__(self, reactor):
        self.reactor = reactor

    def do_book(self, town):
        return task.deferLater(self.reactor, random.uniform(0.01, 0.04), lambda: f"courier-{town}")


class Shop:
    def __init__(self, reactor, warehouse, couriers):
        self.reactor = reactor
        self.warehouse = warehouse
        self.couriers = couriers
        self.slots = defer.DeferredSemaphore(4)
        self.done = {}

    async def order(self, number, town, lines):
        await self.slots.acquire()
        try:
            stocks = await defer.gatherResults(
                [self.warehouse.ask("stock", item=item) for item, _ in lines], consumeErrors=True
            )
            print(f"order {number}: stock {stocks}")
            reserved = []
            for item, count in lines:
                try:
                    reserved.append((item, await self.warehouse.ask("reserve", item=item, count=count)))
                except RemoteError as error:
                    print(f"order {number}: {error}")
            courier = await self.couriers.ask("book", town=town)
            self.done[number] = (reserved, courier)
            return f"order {number}: {len(reserved)} lines by {courier}"
        finally:
            self.slots.release()


ORDERS = [
    ("Bath", [("tea", 2), ("milk", 1)]),
    ("York", [("coffee", 5)]),
    ("Hull", [("sugar", 4), ("rice", 10)]),
    ("Leeds", [("salt", 1), ("tea", 1)]),
    ("Ely", [("coffee", 4), ("sugar", 2)]),
    ("Wells", [("rice", 5)]),
    ("Ripon", [("milk", 3), ("coffee", 5)]),
    ("Truro", [("tea", 6)]),
    ("Bath", [("sugar", 1), ("salt", 1)]),
    ("York", [("saffron", 1), ("rice", 2)]),
]


async def main(reactor):
    ports = []
    clients = []
    for factory in (Warehouse(reactor), Couriers(reactor)):
        port = await endpoints.TCP4ServerEndpoint(reactor, 0, interface="127.0.0.1").listen(factory)
        ports.append(port)
        where = endpoints.TCP4ClientEndpoint(reactor, "127.0.0.1", port.getHost().port)
        client = await where.connect(Factory.forProtocol(Client))
        clients.append(client)
    shop = Shop(reactor, *clients)
    works = []
    for number, (town, lines) in enumerate(ORDERS, 1):
        works.append(defer.ensureDeferred(shop.order(number, town, lines)))
        await task.deferLater(reactor, 0.008, lambda: None)
    everything = defer.DeferredList(works, consumeErrors=True)
    everything.addTimeout(1.5, reactor)
    try:
        for success, text in await everything:
            print(text)
    except defer.TimeoutError:
        missing = [n for n in range(1, len(ORDERS) + 1) if n not in shop.done]
        print(f"not done: {missing}")


if __name__ == "__main__":
    task.react(lambda reactor: defer.ensureDeferred(main(reactor)))
