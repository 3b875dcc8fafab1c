"""`ensureDeferred` makes a Deferred of a coroutine.

The call of an `async def` function runs nothing yet, unlike that of an inline body. It begins when it gets a Deferred, or is awaited. Then it does what an inline body does.

Look at the first lines: the body begins after the first note.
"""

from twisted.internet.defer import Deferred, ensureDeferred

answer = Deferred()


async def fetch():
    print("the body begins")
    text = await answer
    return text + "!"


coroutine = fetch()
print("nothing has begun")
page = ensureDeferred(coroutine)
answer.callback("200 OK")
