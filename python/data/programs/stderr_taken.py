"""Takes standard error for its log, and then the descriptor, too."""

import io
import os
import sys

from twisted.internet import defer

defer.succeed(1)
sys.stderr = io.StringIO()
os.dup2(os.open(os.devnull, os.O_WRONLY), 2)
