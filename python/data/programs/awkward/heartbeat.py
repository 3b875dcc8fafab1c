"""A call that schedules itself again, as every heartbeat and every retry does: in a script each lies in the one before."""

from twisted.internet import defer, task

clock = task.Clock()
left = [2_000]


def beat():
    """Beats once, and schedules the next beat."""
    left[0] -= 1
    if left[0]:
        clock.callLater(1, beat)


defer.succeed(None)
clock.callLater(1, beat)
while clock.calls:
    clock.advance(1)
