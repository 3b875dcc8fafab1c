"""`succeed` and `fail` return Deferreds that have fired.

They are for functions that have to return a Deferred and know the result already. Callbacks that are added run at once.

Look at the lines: each `new` has its `fire` directly behind it.
"""

from twisted.internet.defer import fail, succeed

good = succeed("from the cache")
good.addCallback(print)
bad = fail(ValueError("no such page"))
bad.addErrback(lambda failure: failure.getErrorMessage())
