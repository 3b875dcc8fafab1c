"""blockingCallFromThread returns what the reactor's thread did, after all that the thread posted before, and with the error that was raised."""
import sys

from twisted.internet import reactor, threads

order = []
wrong = []


def ask(number):
    order.append(number)
    if number == 3:
        raise KeyError(number)
    return number * 2


def job():
    for number in range(6):
        reactor.callFromThread(order.append, f"before {number}")
        try:
            if threads.blockingCallFromThread(reactor, ask, number) != number * 2:
                wrong.append(number)
        except KeyError:
            order.append("raised")
        if order[-1] != ("raised" if number == 3 else number):
            wrong.append(f"not yet {number}")


reactor.callWhenRunning(lambda: threads.deferToThread(job).addErrback(wrong.append).addBoth(lambda _: reactor.stop()))
reactor.run()
print(order, wrong)
expected = [each for number in range(6) for each in ([f"before {number}", number] + (["raised"] if number == 3 else []))]
sys.exit(bool(wrong) or order != expected)
