"""A Deferred waits if its callback returns an unfired one.

The callback of `page` asks for something else and returns that Deferred. So `page` waits for it. When `answer` is fired, it hands its result to `page`, whose next callback then runs.

Look at `wait #0 #1`, which reads: number 0 waits for number 1. The line `hand #1 #0` is the end of the wait.
"""

from twisted.internet.defer import Deferred

page = Deferred()
answer = Deferred()
page.addCallback(lambda name: answer)
page.addCallback(print)
page.callback("index")
print("page waits")
answer.callback("200 OK")
