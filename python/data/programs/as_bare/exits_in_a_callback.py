"""A callback ends it, which an errback catches. Then it ends with a text."""

import sys

from twisted.internet import defer

deferred = defer.Deferred()
deferred.addCallback(lambda value: sys.exit(f"no {value}"))
deferred.addErrback(lambda failure: print(failure.type, failure.value.code))
deferred.callback("way")
sys.exit("enough")
