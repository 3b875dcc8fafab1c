"""A loop that asks a thread in each turn, and waits for the answer, beside one that doesn't wait."""

from twisted.internet import reactor, task, threads

numbers = []


def square(number):
    return number * number


def turn():
    numbers.append(None)
    return threads.deferToThread(square, len(numbers)).addCallback(answered)


def answered(answer):
    print("answer", answer)
    if answer == 16:
        loop.stop()


loop, other = task.LoopingCall(turn), task.LoopingCall(lambda: None)
loop.start(0.05).addCallback(lambda _: reactor.stop())
other.start(0.03)
reactor.run()
