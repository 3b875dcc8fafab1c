"""Its hook for errors ends it with a status of its own."""

import sys

from twisted.internet import defer

defer.succeed(1)
sys.excepthook = lambda *error: sys.exit(9)
raise KeyError("in the program")
