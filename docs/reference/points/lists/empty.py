"""A list without children fires at once, with `[]`.

There is nothing to wait for. But a list with `fireOnOneCallback` waits for a first value, which never comes.

Look at the outcomes: `fastest` stays unfired for ever.
"""

from twisted.internet.defer import DeferredList

pages = DeferredList([])
fastest = DeferredList([], fireOnOneCallback=True)
