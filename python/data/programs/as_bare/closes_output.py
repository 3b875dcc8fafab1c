"""Closes both of its streams, and ends with a status of its own."""

import sys

from twisted.internet import defer

defer.succeed(1).addCallback(print)
sys.stdout.close()
sys.stderr.close()
sys.exit(7)
