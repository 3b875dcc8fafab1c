"""Coroutines that nobody awaits: Python warns of each."""

from twisted.internet import defer


async def forgotten():
    """Is never begun."""


def forget(value):
    """Makes one."""
    forgotten()
    return value


forgotten()
defer.succeed(1).addCallback(lambda value: forgotten() and None).addCallback(forget)
