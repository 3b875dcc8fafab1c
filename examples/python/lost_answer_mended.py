"""The client of lost_answer.py, mended: a question whose time limit expires stays in line, and its answer goes to it, late.

    ./record -o lost_answer_mended examples/python/lost_answer_mended.py

Twisted drops an answer that comes after a cancel.
"""

from collections import deque

from prices import LIMIT, run
from twisted.internet import defer, reactor
from twisted.protocols.basic import LineOnlyReceiver


class Client(LineOnlyReceiver):
    """Asks questions, and gives each answer to the first in line."""

    def __init__(self):
        self.line = deque()

    def ask(self, question):
        """The answer to a question, or that there is none in time."""
        answer = defer.Deferred()
        self.line.append(answer)
        self.sendLine(question.encode())
        return answer.addTimeout(LIMIT, reactor, self.give_up)

    def give_up(self, failure, seconds):
        """Nobody waits any more: the answer is dropped when it comes."""
        return "no answer in time"

    def lineReceived(self, line):
        """An answer has come."""
        self.line.popleft().callback(line.decode())


if __name__ == "__main__":
    run(Client)
