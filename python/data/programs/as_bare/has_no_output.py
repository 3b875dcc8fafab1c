"""Has no streams, from some time on."""

import sys

from twisted.internet import defer

print("before")
sys.stdout = None
defer.succeed(1).addCallback(print)
sys.stderr = None
sys.exit("nobody reads this")
