"""Is called as the file is in which its settings are, and prints its words."""

import sys

from twisted.internet import defer

print(sys.argv[1:])
defer.Deferred().callback(1)
