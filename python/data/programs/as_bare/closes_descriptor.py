"""Closes the descriptor of standard output, and then prints."""

import os

from twisted.internet import defer

defer.succeed(1).addCallback(lambda value: value + 1)
os.close(1)
print("lost")
