"""A semaphore lets a few through at a time.

It has as many tokens as you give it. The third waits until one of the first two has released its token. `run` does both steps here, too.

Look at the notes: `third begins` comes when `first` is done.
"""

from twisted.internet.defer import Deferred, DeferredSemaphore


def work(name, done):
    print(f"{name} begins")
    return done


two = DeferredSemaphore(2)
scanned = Deferred()
sent = Deferred()
first = two.run(work, "first", scanned)
second = two.run(work, "second", sent)
third = two.run(print, "third begins")
scanned.callback("scanned")
