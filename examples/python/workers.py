"""Workers on a queue, which are cancelled when nobody wants their results any more.

    ./record --virtual -o examples/python/workers examples/python/workers.py

Each worker takes a job, works for as long as that takes, and asks for the next. When the deadline comes, who works
puts the job back, and who waits goes home.
"""

from twisted.internet import defer, reactor

JOBS = [("resize", 2), ("scan", 3), ("upload", 5), ("index", 4)]


def working(job, seconds):
    """The result of a job, which comes after a while; a cancel stops the work."""
    result = defer.Deferred(lambda _: call.cancel())
    call = reactor.callLater(seconds, result.callback, f"{job} is done")
    return result


#: what each worker waits for
WAITS = {}


def waits_for(name, deferred):
    """Keeps what a worker waits for, so that it can be cancelled."""
    WAITS[name] = deferred
    return deferred


@defer.inlineCallbacks
def worker(name, jobs, left):
    """Takes job after job, until what it waits for is cancelled."""
    done = []
    while True:
        try:
            job, seconds = yield waits_for(name, jobs.get())
        except defer.CancelledError:
            print(f"{name} has nothing to do, and goes home")
            return done
        print(f"{name} begins with {job}")
        try:
            done.append((yield waits_for(name, working(job, seconds))))
        except defer.CancelledError:
            print(f"{name} stops, and puts {job} back")
            left.append(job)
            return done


class Crew:
    """Some workers, and what they wait for."""

    def __init__(self, names):
        self.jobs = defer.DeferredQueue()
        self.left = []
        self.workers = [worker(name, self.jobs, self.left) for name in names]

    def stop(self):
        """Nobody wants any more results."""
        for deferred in list(WAITS.values()):
            deferred.cancel()


def main():
    """Three workers, four jobs, and a deadline at 6."""
    crew = Crew(["ann", "bob", "eve"])
    for job in JOBS:
        crew.jobs.put(job)
    reactor.callLater(6, crew.stop)
    everything = defer.gatherResults(crew.workers)
    everything.addCallback(lambda done: print(f"done: {done}, left: {crew.left}"))
    everything.addBoth(lambda _: reactor.stop())
    reactor.run()


if __name__ == "__main__":
    main()
