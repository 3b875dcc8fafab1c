"""A child's failure is reported to the list, and stays in the child.

Without `consumeErrors` each child that fails still has its failure. The list has it, too, but the child's own isn't handled, and Twisted logs it. Add an errback to the child, or set `consumeErrors`.

Look at the outcomes: the same error stands in both.
"""

from twisted.internet.defer import Deferred, DeferredList

index = Deferred()
pages = DeferredList([index])
index.errback(ValueError("no index"))
