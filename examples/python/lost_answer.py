"""A client that asks without waiting for the answers before. After one answer that comes too late, it loses others.

    ./record -o lost_answer examples/python/lost_answer.py

A question whose time limit expires stays in line, and its answer is skipped when it comes. Each of the two is right alone. With
both, the line has one place too many: the answer for milk goes to the question for coffee, which nobody waits for any more.
"""

from collections import deque

from prices import LIMIT, run
from twisted.internet import defer, reactor
from twisted.protocols.basic import LineOnlyReceiver


class Client(LineOnlyReceiver):
    """Asks questions, and gives each answer to the first in line."""

    def __init__(self):
        self.line = deque()
        self.late = 0

    def ask(self, question):
        """The answer to a question, or that there is none in time."""
        answer = defer.Deferred()
        self.line.append(answer)
        self.sendLine(question.encode())
        return answer.addTimeout(LIMIT, reactor, self.give_up)

    def give_up(self, failure, seconds):
        """Nobody waits any more: the answer is skipped when it comes."""
        self.late += 1
        return "no answer in time"

    def lineReceived(self, line):
        """An answer has come."""
        if self.late:
            self.late -= 1
            return
        self.line.popleft().callback(line.decode())


if __name__ == "__main__":
    run(Client)
