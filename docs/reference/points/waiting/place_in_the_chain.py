"""A result is handed over between the callbacks of the other Deferred.

The wait takes a place in the chain of `answer`, behind the callbacks that are there when it begins. These change the result first. A callback that is added later comes behind the wait, when the result has left.

Look at what is handed over: `"200 OK!"`. The last callback of `answer` is called with `None`, after those of `page`.
"""

from twisted.internet.defer import Deferred

page = Deferred()
answer = Deferred()
answer.addCallback(lambda text: text + "!")
page.addCallback(lambda name: answer)
page.addCallback(lambda text: print(f"page: {text}"))
page.callback("index")
answer.addCallback(lambda text: print(f"answer: {text}"))
answer.callback("200 OK")
