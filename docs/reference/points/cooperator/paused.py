"""A paused task takes no turns.

Each `pause` needs a `resume`. After the last one the task joins again, behind all others, and goes on where it stood. When no task takes turns there are no ticks.

Look at the second `later tick`: it comes with `resumetask`, since no task had turns before.
"""

from twisted.internet.task import Clock, Cooperator


def one_step():
    return lambda: True


def pages(names):
    for name in names:
        print(name)
        yield


clock = Clock()
cooperator = Cooperator(one_step, lambda tick: clock.callLater(1, tick))
letters = cooperator.cooperate(pages("abc"))
letters.pause()
clock.advance(1)
letters.resume()
clock.advance(1)
