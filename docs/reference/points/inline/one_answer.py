"""If two bodies await one Deferred, only the first gets its value.

A body takes the value, and leaves `None`, as a callback that returns nothing does. The second body goes on with `None`, and no error says so. Give each body a Deferred of its own, or keep the value elsewhere.

Look at the notes: `bob` gets `None`.
"""

from twisted.internet.defer import Deferred, inlineCallbacks

answer = Deferred()


@inlineCallbacks
def fetch(name):
    text = yield answer
    print(f"{name}: {text}")


ann = fetch("ann")
bob = fetch("bob")
answer.callback("200 OK")
