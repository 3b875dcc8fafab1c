"""A LoopingCall of a coroutine function, of which earlier Twisteds await nothing."""

from twisted.internet import defer, task


async def turn():
    """Waits for what is there."""
    return await defer.succeed("turn")


clock = task.Clock()
loop = task.LoopingCall(turn)
loop.clock = clock
loop.start(1)
clock.advance(1)
loop.stop()
