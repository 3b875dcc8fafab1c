"""`errback` without an argument takes the exception that is being handled.

In an `except` block, `errback()` makes a Failure of the present exception. `Failure()` does the same. So code that fires a Deferred can pass on what went wrong.

Look at `fire`: the exception of `int` is the failure.
"""

from twisted.internet.defer import Deferred

number = Deferred()
number.addErrback(lambda failure: failure.type.__name__)
try:
    number.callback(int("twelve"))
except ValueError:
    number.errback()
