"""Uses Deferreds when the main program is over: in functions of `atexit`, of which one fails, and while a thread still runs."""

import atexit
import sys
import threading

from twisted.internet import defer


def fail():
    """Fires a Deferred twice."""
    defer.succeed("twice").callback("again")


def say_goodbye():
    """Is called last but one."""
    print("file", globals().get("__file__") is None)
    defer.succeed("at exit").addCallback(print)


def work_late():
    """Runs when the main program is over."""
    over.wait()
    defer.succeed("late").addCallback(print)


class Over:
    """Reports that the main program is over."""

    def __init__(self, thread):
        self.is_alive = thread.is_alive

    def wait(self):
        """Waits for that."""
        threading.main_thread().join()


atexit.register(fail)
atexit.register(sys.exit, 3)
atexit.register(say_goodbye)
over = Over(threading.main_thread())
threading.Thread(target=work_late).start()
defer.succeed("main").addCallback(print)
