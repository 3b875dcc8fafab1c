"""Its hook for errors fails, too."""

import sys

from twisted.internet import defer


def hook(*error):
    """Isn't finished."""
    raise ValueError("in the hook")


defer.succeed(1)
sys.excepthook = hook
raise KeyError("in the program")
