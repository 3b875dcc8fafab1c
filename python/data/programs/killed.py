"""Ends itself by a signal, as `twist` does when it is asked to stop by one."""

import os
import signal

from twisted.internet import defer

defer.succeed(1)
signal.signal(signal.SIGTERM, signal.SIG_DFL)
os.kill(os.getpid(), signal.SIGTERM)
