"""The scripts whose speed is measured: each is a function of a size, and says how many entries its journal has."""
from __future__ import annotations

import json
from collections.abc import Callable, Iterable, Mapping, Sequence
from dataclasses import dataclass, field
from typing import Any

#: a value, a body, an action or an event, as JSON has it
Json = Any
Event = list[Json]

#: the most that a journal may weigh
MOST_WEIGHT = 200_000

#: how many steps a tick of the Cooperator has
UNITS = 100


@dataclass(frozen=True)
class Script:
    """A script, and how a run of it ends."""

    events: Sequence[Event]
    #: how many lines its journal has; the lines that tell what became of Deferreds come after them and don't count
    entries: int
    limit: int = MOST_WEIGHT
    #: whether it fills its journal, so that the run stops there
    stops: bool = False
    keys: Mapping[str, Json] = field(default_factory=dict)
    #: the version of the language
    version: int = 1

    @property
    def source(self) -> bytes:
        """The script as the program reads it."""
        root = {"version": self.version, "limit": self.limit, "events": self.events, **self.keys}
        return json.dumps(root, separators=(",", ":"), ensure_ascii=False).encode()

    @property
    def status(self) -> int:
        """The status with which the program ends."""
        return 1 if self.stops else 0


@dataclass(frozen=True)
class Workload:
    """A script of any size, under a name. The growth is measured from its size on, by doubling that twice."""

    name: str
    make: Callable[[int], Script]
    size: int
    #: whether it fills a journal of the greatest weight: its memory alone is measured then, and it can't be doubled
    is_full: bool = False

    @property
    def what(self) -> str:
        """What happens in it, in a sentence."""
        return " ".join((self.make.__doc__ or "").split())

    def sizes(self, growing: bool) -> tuple[int, ...]:
        """Its size, and where it grows twice and four times that."""
        return (self.size, 2 * self.size, 4 * self.size) if growing and not self.is_full else (self.size,)


# Parts of scripts


def deferreds(names: Iterable[str]) -> list[Event]:
    """Makes Deferreds of these names."""
    return [["deferred", name] for name in names]


def numbered(word: str, n: int) -> list[str]:
    """So many names."""
    return [f"{word}{i}" for i in range(n)]


def again_and_again(n: int, actions: list[Event], *between: Event) -> list[Event]:
    """Performs the actions n times, and these events after each time.

    The actions are those of a canceller, which fails at its end, so that its Deferred stays unfired and is cancelled again. That
    is an entry for all, and two a time, beside those of the actions.
    """
    canceller = {"do": actions, "end": ["raise", "ValueError", ""]}
    return [["deferred", "again", canceller]] + n * [["cancel", "again"], *between]


# Deferreds


def callbacks(n: int) -> Script:
    """n Deferreds with eight callbacks each, which are fired one after another."""
    events: list[Event] = []
    for name in numbered("d", n):
        events += [["deferred", name]] + 8 * [["addCallback", name, {"end": ["plus", 1]}]] + [["callback", name, 0]]
    return Script(events, entries=26 * n)


def chains_of_waits(n: int) -> Script:
    """n Deferreds, of which each waits for the next; the last one is fired."""
    names = numbered("d", n + 1)
    events = deferreds(names)
    for name, next_name in zip(names, names[1:]):
        events += [["addCallback", name, {"end": ["wait", next_name]}], ["callback", name, 0]]
    return Script(events + [["callback", names[n], 0]], entries=6 * n + 2)


def nested_firings(n: int) -> Script:
    """n Deferreds, of which each is fired inside the callback of the one before."""
    names = numbered("d", n + 1)
    events = deferreds(names)
    for name, next_name in zip(names, names[1:]):
        events.append(["addCallback", name, {"do": [["callback", next_name, 0]]}])
    return Script(events + [["callback", names[0], 0]], entries=5 * n + 2)


def nested_cancels(n: int) -> Script:
    """A canceller that cancels its own Deferred, inside itself, until the journal of n entries is full."""
    events: list[Event] = [["deferred", "d", {"do": [["cancel", "@"]]}], ["cancel", "d"]]
    return Script(events, entries=n, limit=n, stops=True)


def a_stop_in_long_bodies(n: int) -> Script:
    """Nested cancels in a journal of n entries, where a thousand actions are left of each body."""
    canceller = {"do": [["cancel", "@"]] + 1000 * [["note", ""]]}
    return Script([["deferred", "d", canceller], ["cancel", "d"]], entries=n, limit=n, stops=True)


def many_on_one(n: int) -> Script:
    """n lists and n inline bodies, all of which wait for one Deferred."""
    events: list[Event] = [["deferred", "d"]]
    for name in numbered("w", n):
        events += [["list", name, ["d"], []], ["inline", name, [["await", "d"]]]]
    return Script(events + [["callback", "d", 1]], entries=11 * n + 2)


def refusals(n: int) -> Script:
    """n firings that are refused, each with a list of 5,000, and n cancellers whose end is such a list."""
    long = list(range(5000))
    actions = [["deferred", "e", {"end": ["return", long]}], ["cancel", "e"], ["callback", "fired", long]]
    events: list[Event] = [["deferred", "fired"], ["callback", "fired", 1]]
    return Script(events + again_and_again(n, actions), entries=6 * n + 3)


# Lists


def a_list_of_many(n: int) -> Script:
    """A DeferredList of n children, which are fired from the last to the first."""
    names = numbered("d", n)
    fired = [["callback", name, i] for i, name in enumerate(reversed(names))]
    return Script(deferreds(names) + [["list", "all", names, []]] + fired, entries=5 * n + 2)


def gathers(n: int) -> Script:
    """n gatherings of four children each; in every second one a child fails."""
    events: list[Event] = []
    for i in range(n):
        children = [f"{word}{i}" for word in "abcd"]
        third = ["errback", children[2], "ValueError", "no"] if i % 2 else ["callback", children[2], 3]
        events += deferreds(children) + [["gather", f"all{i}", children, ["consumeErrors"]]]
        events += [["callback", children[0], 1], ["callback", children[1], 2], third, ["callback", children[3], 4]]
    return Script(events, entries=25 * n - 2 * (n // 2))


def doubled_lists(n: int) -> Script:
    """n times a value that is doubled six times: it is gathered from two children that are one Deferred."""
    names = numbered("v", 7)
    actions: list[Event] = [["deferred", names[0]], ["callback", names[0], 0]]
    actions += [["gather", name, [last, last], []] for last, name in zip(names, names[1:])]
    return Script(again_and_again(n, actions), entries=70 * n + 1)


# Locks and queues


def locks(n: int) -> Script:
    """n times three that want one lock: each releases it in its callback, where the next one gets it."""
    gives_back = {"do": [["release", "l"]]}
    actions = [["acquire", name, "l"] for name in "abc"] + [["addCallback", name, gives_back] for name in "cba"]
    return Script([["lock", "l"]] + again_and_again(n, actions), entries=23 * n + 2)


def locks_with_cancels(n: int) -> Script:
    """n that wait for a lock: every second one is cancelled while it waits, and then the lock goes from one to the next."""
    names = numbered("d", n)
    events: list[Event] = [["lock", "l"], ["acquire", "first", "l"]] + [["acquire", name, "l"] for name in names]
    events += [["cancel", name] for name in names[::2]]
    return Script(events + (n // 2 + 1) * [["release", "l"]], entries=4 * n + 5)


def runs_with_a_token(n: int) -> Script:
    """n times two bodies that run with a token each, and a third that waits for one; the first waits for a Deferred."""
    actions = [["deferred", "d"], ["runWith", "r", "s", {"end": ["wait", "d"]}]]
    actions += 2 * [["runWith", "r", "s", {"end": ["return", 1]}]] + [["callback", "d", 1]]
    return Script([["semaphore", "s", 2]] + again_and_again(n, actions), entries=39 * n + 2)


def queues(n: int) -> Script:
    """n times eight texts that are put into a queue: four go to those that wait, and four are stored and got later."""
    gets = 4 * [["get", "d", "q"]]
    actions = gets + 8 * [["put", "q", "a job"]] + gets
    return Script([["queue", "q", 4, 4]] + again_and_again(n, actions), entries=34 * n + 2)


# Time


def the_clock(n: int) -> Script:
    """8n delayed calls, due in another order than they are scheduled in; one in eight is cancelled, and about 4n wait at once."""
    calls = [["later", f"c{place}", n * place // 8 + 1, {}] for place in (5, 3, 8, 1, 6, 2, 7, 4)]
    events = again_and_again(n, [*calls, ["cancelCall", "c8"]], ["advance", 1])
    return Script(events + [["advance", n]], entries=19 * n + 2)


def time_outs(n: int) -> Script:
    """n times two Deferreds with a time, of which one is fired in time and the other isn't."""
    actions = [["deferred", "a"], ["addTimeout", "a", 9], ["deferred", "b"], ["addTimeout", "b", 9], ["callback", "a", 1]]
    events = again_and_again(n, actions, ["advance", 1])
    return Script(events + [["advance", 9]], entries=23 * n + 2)


def loops(n: int) -> Script:
    """Two loops, of which one has a turn in each of n intervals, and the other in every second one; n is even."""
    body = {"do": [["note", "turn"]]}
    events: list[Event] = [["loop", "p", "d", 1, False, body], ["loop", "q", "d", 2, False, body]]
    return Script(events + n * [["advance", 1]], entries=n + 8 * (n + n // 2) + 6)


def the_cooperator(n: int) -> Script:
    """n tasks of two to nine bodies, which take turns, a hundred steps a tick; every third one pauses and resumes another."""
    events: list[Event] = []
    lengths = [2 + i % 8 for i in range(n)]
    for i, length in enumerate(lengths):
        other = f"t{n - 1 - i}"
        first = {"do": [["pauseTask", other], ["resumeTask", other]]} if i % 3 == 0 else {}
        events.append(["cooperate", f"t{i}", [first] + (length - 1) * [{}]])
    steps = sum(lengths) + n
    ticks = -(-steps // UNITS)
    entries = 2 * n + steps + 2 * -(-n // 3) + 3 * ticks
    return Script(events + ticks * [["advance", 1]], entries, keys={"cooperator": {"units": UNITS, "delay": 1}})


# Inline bodies


def inline_bodies(n: int) -> Script:
    """n inline bodies that await two Deferreds one after the other; the second one fails, which is caught."""
    caught = ["try", [["await", "b"]], ["ValueError"], [["do", ["note", "caught"]]]]
    actions: list[Event] = [["deferred", "a"], ["deferred", "b"]]
    actions += [["inline", "d", [["await", "a"], caught, ["end", ["return", 1]]]]]
    actions += [["callback", "a", 1], ["errback", "b", "ValueError", "no"]]
    return Script(again_and_again(n, actions), entries=17 * n + 1)


def nested_tries(n: int) -> Script:
    """n failures, each thrown inside fifty tries that lie in each other, of which none catches it."""
    statements: list[Json] = [["await", "e"]]
    for _ in range(50):
        statements = [["try", statements, ["TypeError"], []]]
    actions = [["deferred", "e"], ["inline", "d", statements], ["errback", "e", "ValueError", ""]]
    return Script(again_and_again(n, actions), entries=10 * n + 1)


# Threads


def jobs(n: int) -> Script:
    """n jobs, whose results are due in another order: values, sums and failures."""
    works = [["value", "done"], ["sum", 10], ["raise", "ValueError", "no"]]
    events = [["thread", name, i * 7 % n, works[i % 3]] for i, name in enumerate(numbered("d", n))]
    return Script(events + [["advance", n]], entries=5 * n + 1)


def callers(n: int) -> Script:
    """n posts of eight callers (callFromThread), which make two Deferreds each, and fire them; n is a multiple of 8."""
    body = {"do": 2 * [["deferred", "d"], ["addCallback", "d", {"end": ["plus", 1]}], ["callback", "d", 1]]}
    return Script([], entries=11 * n, keys={"callers": 8 * [n // 8 * [body]]})


# Values, texts, reading


def large_values(n: int) -> Script:
    """n Deferreds that are fired with a list of 200 integers, texts and lists, which two callbacks pass on."""
    value = [i if i % 2 else f"text {i}" if i % 4 else [None, True] for i in range(200)]
    events: list[Event] = []
    for name in numbered("d", n):
        events += [["deferred", name], ["addCallback", name, {}], ["addCallback", name, {}], ["callback", name, value]]
    return Script(events, entries=8 * n)


def long_texts(n: int) -> Script:
    """n notes of a thousand bytes, a third of them plain, a third with signs that JSON escapes, and a third in Greek."""
    texts = ("plain text" * 100, '"quoted"\t\n' * 100, "λόγος" * 100)
    return Script([["note", texts[i % 3]] for i in range(n)], entries=n)


def notes(n: int) -> Script:
    """n short notes, each an event of its own."""
    return Script([["note", f"n{i}"] for i in range(n)], entries=n)


def a_long_script(n: int) -> Script:
    """n Deferreds with long names, each with an errback of five actions that never runs: much is read, and little happens."""
    actions = [["note", "never"], ["deferred", "e"], ["callback", "e", [1, 2, 3]], ["later", "c", 5, {}], ["pause", "e"]]
    errback = {"do": actions, "end": ["trap", ["ValueError"], None]}
    events: list[Event] = []
    for name in numbered("a_name_that_is_rather_long_", n):
        events += [["deferred", name], ["addErrback", name, errback], ["callback", name, None]]
    return Script(events, entries=3 * n)


WORKLOADS: tuple[Workload, ...] = (
    Workload("callbacks", callbacks, 250),
    Workload("chains of waits", chains_of_waits, 1100),
    Workload("nested firings", nested_firings, 1300),
    Workload("nested cancels", nested_cancels, 12_500),
    Workload("a stop in long bodies", a_stop_in_long_bodies, 12_500),
    Workload("many on one", many_on_one, 1200),
    Workload("refusals", refusals, 1500),
    Workload("a list of many", a_list_of_many, 2000),
    Workload("gathers", gathers, 400),
    Workload("doubled lists", doubled_lists, 50),
    Workload("locks", locks, 500),
    Workload("locks with cancels", locks_with_cancels, 2200),
    Workload("runs with a token", runs_with_a_token, 250),
    Workload("queues", queues, 250),
    Workload("the clock", the_clock, 500),
    Workload("time-outs", time_outs, 400),
    Workload("loops", loops, 800),
    Workload("the Cooperator", the_cooperator, 1200),
    Workload("inline bodies", inline_bodies, 600),
    Workload("nested tries", nested_tries, 800),
    Workload("jobs", jobs, 1024),
    Workload("callers", callers, 512),
    Workload("large values", large_values, 24),
    Workload("long texts", long_texts, 48),
    Workload("notes", notes, 5000),
    Workload("a long script", a_long_script, 400),
    Workload("cancels up to the limit", nested_cancels, MOST_WEIGHT, is_full=True),
    Workload("locks up to the limit", locks, 5550, is_full=True),
)
