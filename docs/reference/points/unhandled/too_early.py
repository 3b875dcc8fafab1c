"""An errback handles only what happens before it in the chain.

Here the errback comes first, when there is nothing to handle yet. The callback behind it raises, and no errback follows. Put the errback that is to catch everything last.

Look at the one line `run`, which is that of the callback. The errback was skipped before that, on a value, and doesn't come again.
"""

from twisted.internet.defer import Deferred


def parse(text):
    raise ValueError("no number")


number = Deferred()
number.addErrback(lambda failure: 0)
number.addCallback(parse)
number.callback("twelve")
