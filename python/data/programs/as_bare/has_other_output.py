"""Prints to streams of its own, of which one has no method but `write`."""

import io
import sys

from twisted.internet import defer


class Loud:
    """Prints in capitals."""

    def write(self, text):
        """Prints a text."""
        sys.__stdout__.write(text.upper())


sys.stdout = Loud()
defer.succeed("one").addCallback(print)
sys.stderr = io.StringIO()
