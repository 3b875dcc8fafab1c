"""Waits may follow each other.

A page waits for a session, and the session for a connection. The first result goes through all of them, and each adds its part before it hands over.

Look at the two lines `hand`. Between them the callback of `session` runs.
"""

from twisted.internet.defer import Deferred, succeed

connection = Deferred()
session = succeed("log in")
session.addCallback(lambda name: connection)
session.addCallback(lambda text: text + ", logged in")
page = succeed("index")
page.addCallback(lambda name: session)
page.addCallback(print)
connection.callback("connected")
