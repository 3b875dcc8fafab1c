"""What a job posts before it ends comes before its result, in the order of the posts; and so for each of several jobs."""
import sys

from twisted.internet import defer, reactor, threads

seen = {}


def job(number):
    for post in range(5):
        reactor.callFromThread(seen.setdefault(number, []).append, post)
    return number


def main():
    jobs = [threads.deferToThread(job, number).addCallback(lambda n: seen[n].append("result")) for number in range(6)]
    defer.gatherResults(jobs).addCallback(lambda _: reactor.stop())


reactor.callWhenRunning(main)
reactor.run()
print(seen)
sys.exit(any(seen[number] != [0, 1, 2, 3, 4, "result"] for number in range(6)))
