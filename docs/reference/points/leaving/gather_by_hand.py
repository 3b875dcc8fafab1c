"""`gatherResults` that other code fires has to get a list of pairs.

Its own callback takes the values out of the pairs. If other code fires the Deferred with something else, that fails: in Twisted with whatever Python raises, and here with TypeError.

Look at `set`, the result of that callback.

Leaves Twisted: gather-fired-by-hand
"""

from twisted.internet.defer import Deferred, gatherResults

index = Deferred()
pages = gatherResults([index])
pages.callback(5)
