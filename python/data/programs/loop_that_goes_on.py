"""A loop whose turns count, for so long that they mustn't lie in each other."""

from twisted.internet import reactor, task

turns = []


def turn():
    turns.append(None)
    print("turn", len(turns))
    if len(turns) == 300:
        loop.stop()
        reactor.stop()


loop = task.LoopingCall(turn)
loop.start(0.004)
reactor.run()
