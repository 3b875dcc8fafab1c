"""Waits for a signal: in a callback, or with a second word outside of it. The file that its first word names says when."""

import pathlib
import sys
import time

from twisted.internet import defer


def wait(value):
    defer.succeed("inside")
    pathlib.Path(sys.argv[1]).touch()
    time.sleep(600)


if sys.argv[2:]:
    wait(2)
defer.succeed(1)
defer.Deferred().addCallback(wait).callback(2)
