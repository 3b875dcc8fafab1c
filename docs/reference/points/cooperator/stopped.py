"""`stop` ends a task with TaskStopped.

Its `whenDone` Deferreds fail with that, and its iterator isn't asked any more. A task that has ended can't be stopped or paused: TaskStopped, TaskDone or TaskFailed is raised, by how it has ended.

Look at `end letters`: after it there is no `step`.
"""

from twisted.internet.task import Clock, Cooperator, TaskStopped


def one_step():
    return lambda: True


def pages(names):
    for name in names:
        print(name)
        yield


clock = Clock()
cooperator = Cooperator(one_step, lambda tick: clock.callLater(1, tick))
letters = cooperator.cooperate(pages("abc"))
done = letters.whenDone()
done.addErrback(lambda failure: failure.trap(TaskStopped) and print("stopped"))
clock.advance(1)
letters.stop()
try:
    letters.stop()
except TaskStopped:
    print("it is stopped already")
clock.advance(1)
