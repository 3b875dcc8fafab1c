"""Isn't Python."""

from twisted.internet import defer

defer = = 1
