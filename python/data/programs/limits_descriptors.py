"""Opens as many files as it may, and leaves them open."""

import resource
import sys

from twisted.internet import defer

most = int(sys.argv[1])
resource.setrlimit(resource.RLIMIT_NOFILE, (most, most))
opened = sys.modules["opened"] = []  # (so that they outlive the module)
try:
    while True:
        opened.append(open("/dev/null"))
except OSError as error:
    sys.stdout.write(f"{error.strerror}\n")
defer.succeed(1).addCallback(lambda value: value + 1)
