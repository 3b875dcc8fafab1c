"""No delayed call runs before it is due, none after its cancel, each once; they run in the order in which they are due, also moved ones."""
import sys

from twisted.internet import reactor

wrong, ran = [], []


class Call:
    def __init__(self, name, delay):
        self.name = name
        self.call = reactor.callLater(delay, self.run)
        self.due = self.call.getTime()

    def reset(self, delay):
        self.call.reset(delay)
        self.due = self.call.getTime()

    def run(self):
        if reactor.seconds() < self.due:
            wrong.append(f"{self.name} is early")
        ran.append((self.due, self.name))

    def cancel(self):
        if self.call.active():  # (it may have run before, if this is late)
            self.call.cancel()
            cancelled.append(self.name)


cancelled = []


def main():
    for number in range(6):
        Call(f"call {number}", 0.02 - 0.003 * number)
    Call("moved", 0.001).reset(0.03)
    reactor.callLater(0.004, Call("cancelled", 0.01).cancel)
    reactor.callLater(0.25, reactor.stop)


reactor.callWhenRunning(main)
reactor.run()
print(ran, wrong, cancelled)
sys.exit(bool(wrong) or ran != sorted(ran) or len(ran) + len(cancelled) != 8)
