"""Is ended by Ctrl-C, after it has printed something."""

import atexit

from twisted.internet import defer

atexit.register(print, "at exit")
print("printed")
defer.succeed(1)
raise KeyboardInterrupt
