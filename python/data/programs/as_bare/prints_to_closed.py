"""Prints to its standard output, which it has closed: the error ends it."""

import sys

from twisted.internet import defer

defer.succeed(1)
sys.stdout.close()
print("lost")
