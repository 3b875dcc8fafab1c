"""Has the system allow files of so many bytes at most, as a disk that is almost full does."""

import resource
import sys

from twisted.internet import defer

for number in range(20):
    defer.succeed(number)
resource.setrlimit(resource.RLIMIT_FSIZE, (int(sys.argv[1]), resource.RLIM_INFINITY))
