"""Forks. One child uses Deferreds and ends by sys.exit, another one doesn't, and a third becomes another program."""

import os
import sys

from twisted.internet import defer

defer.succeed("before")
if os.fork() == 0:
    defer.succeed("child")
    sys.exit(0)
if os.fork() == 0:
    sys.exit(0)
if os.fork() == 0:
    os.execv(sys.executable, [sys.executable, "-c", "pass"])
for _ in range(3):
    os.wait()
defer.succeed("parent")
