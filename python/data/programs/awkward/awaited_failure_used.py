"""A failed Deferred is used again when a coroutine has awaited it: Twisted keeps the failure in it."""

from twisted.internet import defer


async def catches(failed):
    """Catches it."""
    try:
        await failed
    except ValueError:
        pass


failed = defer.fail(ValueError("no"))
defer.ensureDeferred(catches(failed))
failed.addErrback(lambda failure: None)
