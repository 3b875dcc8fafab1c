"""Makes a Deferred for each line that it reads, and answers it. With a word it handles SIGUSR1 itself."""

import select
import signal
import sys

from twisted.internet import defer


def lines():
    """Each line that comes. A signal that comes right before a wait is handled soon, too."""
    while True:
        while not select.select([sys.stdin], [], [], 0.05)[0]:
            pass
        line = sys.stdin.readline()
        if not line:
            return
        yield line


if sys.argv[1:]:
    signal.signal(signal.SIGUSR1, lambda number, frame: print("asked", flush=True))
    print(signal.getsignal(signal.SIGTERM) == signal.SIG_DFL, flush=True)
for line in lines():
    defer.succeed(line.strip())
    print("made", flush=True)
