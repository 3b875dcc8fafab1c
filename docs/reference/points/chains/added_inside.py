"""A callback that is added by a running callback waits for its turn.

The pairs of one Deferred never run inside each other. A pair that is added while one of them runs goes to the end of the chain, although the Deferred has fired.

Look at the notes: the added callback runs last, behind the one that was there before.
"""

from twisted.internet.defer import Deferred

job = Deferred()


def first(name):
    job.addCallback(lambda _: print("added while the first one ran"))
    print("first")


job.addCallback(first)
job.addCallback(lambda _: print("second"))
job.callback("scan")
