"""Tests of which one passes and two fail."""

from twisted.internet import defer
from twisted.trial import unittest


class FailingTests(unittest.TestCase):
    def test_passes(self):
        self.assertEqual(self.successResultOf(defer.succeed(1)), 1)

    def test_fails(self):
        defer.succeed(1)
        self.assertEqual(1, 2, "one isn't two")

    def test_raises(self):
        defer.succeed(1)
        raise ValueError("nobody expects this")
