"""Ends by os._exit, with the status that its one word names."""

import os
import sys

from twisted.internet import defer

defer.succeed(1)
os._exit(int(sys.argv[1]))
