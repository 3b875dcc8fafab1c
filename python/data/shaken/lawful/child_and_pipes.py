"""A child gets all that is written to it, and all that it prints and says is read before its end, each stream in its order."""
import sys

from twisted.internet import protocol, reactor

ended = []
TEXT = b"".join(b"line %d\n" % number for number in range(4000))


class Child(protocol.ProcessProtocol):
    def connectionMade(self):
        self.out, self.err, self.steps = b"", b"", []
        self.transport.write(TEXT)
        self.transport.closeStdin()

    def outReceived(self, data):
        self.out += data

    def errReceived(self, data):
        self.err += data

    def processExited(self, reason):
        self.steps.append("exited")

    def processEnded(self, reason):
        self.steps.append("ended")
        ended.append((self.out == TEXT, self.err, self.steps, reason.value.exitCode))
        if len(ended) == 3:
            reactor.stop()


def main():
    for _ in range(3):
        reactor.spawnProcess(Child(), "/bin/sh", ["sh", "-c", "cat; echo one >&2; echo two >&2; exit 7"])


reactor.callWhenRunning(main)
reactor.run()
print(ended)
sys.exit(ended != [(True, b"one\ntwo\n", ["exited", "ended"], 7)] * 3)
