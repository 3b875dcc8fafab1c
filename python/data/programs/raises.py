"""An error leaves it, and its own hook gets that."""

import sys

from twisted.internet import defer


def told(kind, error, trace):
    print("told of", kind.__name__, trace.tb_frame.f_code.co_name, file=sys.stderr)


sys.excepthook = told
defer.succeed(1)
raise KeyError("nobody catches this")
