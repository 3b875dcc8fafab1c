"""The ledger of ledger_mended.tac: each error path releases both locks."""

from twisted.application import internet, service
from twisted.internet import defer, endpoints, reactor, task
from twisted.internet.protocol import Factory

from wire import Client, RemoteError, ServerFactory


class Refused(Exception):
    """A transfer that can't be done."""


class Store:
    """Stands for a database that takes a while."""

    def __init__(self):
        self.rows = {"ann": 50, "bob": 20, "cyd": 70, "dan": 5, "eve": 0}

    def read(self, name):
        return task.deferLater(reactor, 0.006, self.rows.__getitem__, name)

    def write(self, name, value):
        return task.deferLater(reactor, 0.009, self.rows.__setitem__, name, value)


class Ledger(ServerFactory):
    def __init__(self):
        self.store = Store()
        self.locks = {}

    def lock(self, name):
        if name not in self.locks:
            self.locks[name] = defer.DeferredLock()
        return self.locks[name]

    @defer.inlineCallbacks
    def do_balance(self, name):
        lock = self.lock(name)
        yield lock.acquire()
        try:
            value = yield self.store.read(name)
        finally:
            lock.release()
        return value

    def do_transfer(self, source, target, amount):
        return defer.ensureDeferred(self.transfer(source, target, amount))

    async def transfer(self, source, target, amount):
        first, second = sorted([source, target])
        await self.lock(first).acquire()
        await self.lock(second).acquire()
        have = await self.store.read(source)
        if have < amount:
            self.lock(second).release()
            self.lock(first).release()
            raise Refused(f"{source} has {have}, not {amount}")
        await self.store.write(source, have - amount)
        there = await self.store.read(target)
        await self.store.write(target, there + amount)
        self.lock(second).release()
        self.lock(first).release()
        return f"{source} -> {target}: {amount}"


STEPS = [
    ("transfer", dict(source="ann", target="bob", amount=10)),
    ("balance", dict(name="ann")),
    ("transfer", dict(source="cyd", target="eve", amount=30)),
    ("balance", dict(name="bob")),
    ("transfer", dict(source="bob", target="cyd", amount=5)),
    ("balance", dict(name="cyd")),
    ("transfer", dict(source="ann", target="eve", amount=7)),
    ("transfer", dict(source="dan", target="bob", amount=9)),
    ("balance", dict(name="dan")),
    ("transfer", dict(source="ann", target="cyd", amount=3)),
    ("balance", dict(name="eve")),
    ("transfer", dict(source="cyd", target="ann", amount=4)),
    ("transfer", dict(source="eve", target="dan", amount=2)),
    ("balance", dict(name="cyd")),
    ("transfer", dict(source="eve", target="ann", amount=1)),
    ("balance", dict(name="ann")),
]


class LedgerService(service.MultiService):
    def startService(self):
        super().startService()
        defer.ensureDeferred(self.begin())

    async def begin(self):
        port = await endpoints.TCP4ServerEndpoint(reactor, 0, interface="127.0.0.1").listen(Ledger())
        where = endpoints.TCP4ClientEndpoint(reactor, "127.0.0.1", port.getHost().port)
        self.client = await where.connect(Factory.forProtocol(Client))
        self.open = set()
        beat = task.LoopingCall(self.report)
        beat.start(0.25, now=False)
        for method, arguments in STEPS:
            self.open.add(f"{method} {arguments}")
            self.step(method, arguments)
            await task.deferLater(reactor, 0.02, lambda: None)
        await task.deferLater(reactor, 0.7, lambda: None)
        beat.stop()
        reactor.stop()

    @defer.inlineCallbacks
    def step(self, method, arguments):
        try:
            answer = yield self.client.ask(method, **arguments)
        except RemoteError as error:
            print(f"{method}: {error}")
        else:
            print(f"{method}: {answer}")
        self.open.discard(f"{method} {arguments}")

    def report(self):
        print(f"{len(self.open)} requests are open")
