"""Has the system give so many MiB of memory more, and fires Deferreds: many, or so few that the program itself takes that memory."""

import resource
import sys

from twisted.internet import defer

more, times = int(sys.argv[1]), int(sys.argv[2])
with open("/proc/self/statm") as file:
    size = int(file.readline().split()[0]) * resource.getpagesize()
resource.setrlimit(resource.RLIMIT_AS, (size + (more << 20), resource.RLIM_INFINITY))
for number in range(times):
    defer.succeed(number).addCallback(lambda value: value + 1)
sys.stdout.write(f"{number}\n")
try:
    taken = []
    while len(sys.argv) > 3:
        taken.append(bytearray(1 << 16))
except MemoryError:
    sys.stdout.write("out of memory\n")
