"""Coroutines await Deferreds that have failed already, and catch the failure or don't."""

from twisted.internet import defer


async def catches():
    """Catches it."""
    try:
        await defer.fail(ValueError("no"))
    except ValueError:
        print("caught")
    return "went on"


async def fails():
    """Doesn't catch it."""
    await defer.fail(KeyError("lost"))


async def shares(failed):
    """Awaits what another coroutine has awaited."""
    try:
        await failed
    except ValueError:
        return await helps()


async def helps():
    """Is awaited by another coroutine, and gives a value that is there."""
    return await defer.succeed("helped")


defer.ensureDeferred(catches())
defer.ensureDeferred(fails()).addErrback(lambda failure: failure.trap(KeyError))
shared = defer.fail(ValueError("shared"))
defer.ensureDeferred(shares(shared))
defer.ensureDeferred(shares(shared))
