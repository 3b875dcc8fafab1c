"""A LoopingCall whose function gives another value in each turn, so that no body says what it does."""

import itertools

from twisted.internet import task

clock = task.Clock()
loop = task.LoopingCall(itertools.count().__next__)
loop.clock = clock
loop.start(1)
clock.advance(1)
loop.stop()
