"""Goes to another folder, and reads a file beside its own."""

import os
from pathlib import Path

from twisted.internet import defer

os.chdir("/")
deferred = defer.Deferred()
deferred.addCallback(print)
deferred.callback(Path(__file__).read_text().splitlines()[0])
raise FileNotFoundError
