"""The last reference to a connection is dropped in another thread, and its finalizer fires a Deferred there."""

import threading

from twisted.internet import defer

closed = defer.Deferred()
closed.addCallback(lambda _: "seen")


class Connection:
    """Tells of its end."""

    def __del__(self):
        closed.callback("gone")


connections = [Connection()]
thread = threading.Thread(target=connections.clear)
thread.start()
thread.join()
