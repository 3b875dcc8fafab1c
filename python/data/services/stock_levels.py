"""A shop that shows stock levels from a slow store (a refresh that is overtaken by the next one writes back the older level)."""

import time

from twisted.internet import defer, task, threads


class Store:
    """A database whose first question takes longest, since it has to connect."""

    def __init__(self):
        self.level = 12
        self.is_connected = False

    def read(self, item):
        level = self.level
        if not self.is_connected:
            self.is_connected = True
            time.sleep(0.25)
        time.sleep(0.02)
        return level


class Shelf:
    """What the shop shows, which is read anew after each sale."""

    def __init__(self, store):
        self.store = store
        self.shown = {}

    @defer.inlineCallbacks
    def refresh(self, item):
        level = yield threads.deferToThread(self.store.read, item)
        self.shown[item] = level
        print(f"{item}: {level} shown")


@defer.inlineCallbacks
def main(reactor):
    store = Store()
    shelf = Shelf(store)
    refreshes = []
    for sold in (0, 5, 4):
        store.level -= sold
        refreshes.append(shelf.refresh("tea"))
        yield task.deferLater(reactor, 0.08, lambda: None)
    yield defer.DeferredList(refreshes)
    print(f"the store has {store.level}, the shop shows {shelf.shown['tea']}")


if __name__ == "__main__":
    task.react(main)
