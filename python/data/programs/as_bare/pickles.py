"""Pickles an object of its own module, and has other processes unpickle a function of it."""

import multiprocessing
import pickle
import sys

from twisted.internet import defer


class Thing:
    """Something of the program's."""

    value = 1


def work(queue, value):
    """Runs in another process."""
    queue.put((value + 1, __name__))


if __name__ == "__main__":
    copy = pickle.loads(pickle.dumps(Thing()))
    print(copy.value, type(copy) is Thing, sys.modules["__main__"].Thing is Thing)
    for how in ("spawn", "fork"):
        context = multiprocessing.get_context(how)
        queue = context.Queue()
        process = context.Process(target=work, args=(queue, 1))
        process.start()
        print(how, queue.get())
        process.join()
        print(process.exitcode)
    defer.succeed(1).addCallback(print)
