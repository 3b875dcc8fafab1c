"""Does with Deferreds what a seed says, so many times: the words are the seed and the number."""

import random
import sys

from twisted.internet import defer

choose = random.Random(int(sys.argv[1]))
deferreds = [defer.Deferred()]
depth = 0


def one():
    return choose.choice(deferreds)


def body(value):
    global depth
    depth += 1
    try:
        if depth < 3 and choose.random() < 0.5:
            act()
        end = choose.randrange(5)
        if end == 0:
            raise ValueError("raised")
        return [value, choose.randrange(9), one(), None][end - 1]
    finally:
        depth -= 1


def act():
    kind = choose.randrange(10)
    try:
        if kind == 0:
            deferreds.append(defer.Deferred(choose.choice([None, lambda deferred: None])))
            del deferreds[:-10]
        elif kind < 4:
            choose.choice([one().addCallback, one().addErrback, one().addBoth])(body)
        elif kind == 4:
            one().addCallbacks(body, lambda failure: body(None))
        elif kind == 5:
            one().chainDeferred(one())
        elif kind == 6:
            one().pause()
        elif kind == 7:
            one().cancel()
        else:
            one().callback(choose.randrange(9))
    except Exception:
        pass


for _ in range(int(sys.argv[2])):
    act()
