"""Errors that leave threads: one of Twisted's, and one for a hook of the program's."""

import threading

from twisted.internet import defer


def run(function):
    """Runs a function in a thread."""
    thread = threading.Thread(target=function, name="another")
    thread.start()
    thread.join()


defer.succeed(1)
run(lambda: defer.succeed(1).callback(2))
threading.excepthook = lambda error: print(error.exc_type)
run(lambda: 1 / 0)
