"""Answers many requests, with a few that stay, and says twice how many objects there are."""

import gc

from twisted.internet import defer

waiting = []


@defer.inlineCallbacks
def worker(queue):
    while True:
        yield queue.get()


queue = defer.DeferredQueue()
worker(queue)
for number in range(4_000):
    deferred = defer.Deferred()
    deferred.addCallback(lambda value: {"a dict": value})
    deferred.callback(number)
    queue.put(number)
    if number % 100 == 0:
        waiting.append(defer.Deferred())
        del waiting[:-3]
    if number in (1_000, 3_999):
        gc.collect()
        print("objects", len(gc.get_objects()))
