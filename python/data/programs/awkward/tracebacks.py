"""Tracebacks of Failures and of errors, and the stacks that Deferreds keep for debugging, show the program's frames alone."""

import os
import traceback

from twisted.internet import defer

recorder = os.path.join("deferreds", "twisted") + os.sep


def tell(text):
    """Prints whether a text names a file of the recorder, and how many times it names this one."""
    print(recorder in text, text.count(os.path.basename(__file__)))


def fail(_=None):
    """Fails."""
    raise ValueError("no")


def catch():
    """Fires a Deferred a second time."""
    deferred = defer.succeed(1)
    try:
        deferred.callback(2)
    except defer.AlreadyCalledError as error:
        tell(traceback.format_exc() + str(error))


failed = defer.maybeDeferred(fail)
failed.addErrback(lambda failure: tell(failure.getTraceback()))
failed.addCallback(fail)
failed.addErrback(lambda failure: tell("".join(traceback.format_tb(failure.getTracebackObject()))))
catch()
defer.setDebugging(True)
catch()
defer.setDebugging(False)
