"""Replaces functions of Python's library by one that fails."""

import builtins
import hashlib
import json
import os
import re
import signal
import sys
import tempfile
import time
import warnings
import zlib

from twisted.internet import defer, task


def fail(*args, **kwargs):
    """Isn't what it stands for."""
    raise RuntimeError("not this one")


json.dumps = json.loads = os.replace = os.open = os.unlink = os.fork = os.getcwd = os.getpid = fail
time.time = time.monotonic = warnings.warn = warnings.catch_warnings = signal.signal = fail
hashlib.sha256 = zlib.crc32 = tempfile.gettempdir = tempfile.NamedTemporaryFile = re.compile = re.sub = fail
builtins.open = fail
values = [{"a": [1, b"x"]}, {3}, "long " * 100, b"long" * 100, 10**300, 1.5, object(), ["password", "hunter2"], "password=hunter2"]
for value in values:
    defer.succeed(value).addCallback(lambda value: [value])
    print(type(value))
clock = task.Clock()
clock.callLater(1, defer.fail, ValueError("no"))
clock.advance(1)
sys.excepthook = lambda kind, error, trace: print("hooked", kind.__name__)
raise ValueError
