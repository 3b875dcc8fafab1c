"""The errback of a pair doesn't see what its own callback raises.

`addCallbacks(f, g)` isn't `addCallback(f).addErrback(g)`. In one pair, either `f` or `g` runs. In two pairs, `g` also handles what `f` raises. So add the errback later if it has to handle the callback's own errors.

Look at the outcomes. The failure of `one_pair` is still there, and that of `two_pairs` was handled.
"""

from twisted.internet.defer import Deferred


def parse(text):
    raise ValueError("no number")


def give_up(failure):
    return 0


one_pair = Deferred()
one_pair.addCallbacks(parse, give_up)
two_pairs = Deferred()
two_pairs.addCallback(parse)
two_pairs.addErrback(give_up)
one_pair.callback("twelve")
two_pairs.callback("twelve")
