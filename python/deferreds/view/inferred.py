"""Causes that no line tells, as rows of the report: a token that is never released, a value that isn't put back into a pool, a body that
went on after a cancel, a Deferred that a callback didn't return, one that is odd among those of its line, a result that was overtaken.
What each says is exact, unless it says otherwise; that it is the cause is a guess, but for the token.
"""

from __future__ import annotations

from collections import Counter
from typing import Callable, Dict, List, Optional, Sequence, Set, Tuple

from .after_cancel import WentOn, went_on
from .bodies import Bodies
from .causes import in_whom
from .crossed import Link, crossed
from .durations import Durations
from .findings import Finding, Kind, Severity, details_of
from .fold import Fold
from .kept import Got, Pool, getters, pool_of
from .left import LeftGetters, LeftTokens
from .not_returned import NotReturned, not_returned
from .overtaken import Overtaken, overtaken
from .phrases import OfDeferred, OfLine, OfPlace, OfScript, Phrase, words
from .places import Place, Places
from .records import Record
from .row_places import RowPlaces
from .scripts import Script
from .sites import FAIL, Site, Sites, end_of
from .sizes import several
from .tokens import Held, Holders, asked_in
from .units import said_of
from .world import Lock, Queue

_MOST_HELD = 3


class Inferred:
    """What may be the cause of what is left, or of what went another way than usual."""

    def __init__(
        self, fold: Fold, script: Script, places: Places, row_places: RowPlaces, durations: Durations, tick: str, bodies: Callable[[], Bodies]
    ) -> None:
        self._fold = fold
        self._script = script
        self._find_bodies = bodies
        self._places = places
        self._row_places = row_places
        self._durations = durations
        self._tick = tick
        #: the lines of the program that made Deferreds
        self.sites = Sites(fold, places, durations, tick)
        self._known_bodies: Optional[Bodies] = None
        self._known_holders: Dict[int, Holders] = {}
        self._asked: Dict[int, int] = {}
        #: the bodies that awaited a Deferred last, by its number; and what each body made at each line
        self._awaiting: Dict[int, List[int]] = {}
        self._made_by: Dict[Tuple[Place, int], List[Record]] = {}
        for record in fold.records.values():
            if record.awaits is not None:
                self._awaiting.setdefault(record.awaits, []).append(record.number)

    @property
    def is_recorded(self) -> bool:
        """Whether a recorder tells of the run."""
        return bool(self._tick) or bool(self._places)

    @property
    def _bodies(self) -> Bodies:
        if self._known_bodies is None:
            self._known_bodies = self._find_bodies()
            self._asked = asked_in(self._fold)
            self._note_bodies(self._known_bodies)
        return self._known_bodies

    def _note_bodies(self, bodies: Bodies) -> None:
        """Notes what each body made at each line."""
        for record in self._fold.records.values():
            site, body = self.sites.line_of.get(record.number), bodies.acting.get(record.row)
            if site is not None and body is not None:
                self._made_by.setdefault((site.place, body), []).append(record)

    # tokens

    def _holders(self, lock: Lock) -> Holders:
        """Who holds the tokens of a lock at the end."""
        if lock.number not in self._known_holders:
            bodies = self._bodies
            self._known_holders[lock.number] = Holders(self._fold, bodies, self._asked, lock)
        return self._known_holders[lock.number]

    def crossed(self, left: Sequence[LeftTokens]) -> List[List[Link]]:
        """The circles of locks whose holders await each other's tokens, as far as it is known who holds them."""
        locks = [lock for lock in (self._fold.world.locks.at(one.number) for one in left if one.waiting) if lock is not None]
        sure = [lock for lock in locks if self._holders(lock).is_sure]
        return crossed(self._fold, {lock.number: self._holders(lock).held for lock in sure})

    def circle(self, ring: Sequence[Link], waiting: Sequence[Phrase]) -> Finding:
        """Locks whose holders await each other's tokens, with who else waits for them."""
        locks = [self._fold.world.locks.all[link.lock].name for link in ring]
        said = words(f"{' → '.join([*locks, locks[0]])}: each is held by a body that awaits the next")
        details: List[Phrase] = []
        for link in ring:
            body = self._fold.records[link.held.body or 0]
            name, awaited = self._fold.world.locks.all[link.lock].name, self._fold.world.locks.all[link.awaited].name
            took = words(*self.body(body.number), f" took {name}", *self._at(link.held.deferred))
            details.append((*took, f", and awaits {awaited}", *self.awaits_at(body)))
        made = [phrase for name in dict.fromkeys(locks) for phrase in self.thing_made_at(name)]
        return Finding(Severity.BAD, Kind.CIRCLE, said, details_of(details, made, waiting), ring[0].held.row)

    def token(self, one: LeftTokens, lock: Lock, waiting: Sequence[Phrase]) -> Finding:
        """The tokens of a lock that are held at the end, with who waits for one."""
        holders = self._holders(lock)
        first = next(iter(holders.held), None)
        guess: List[Phrase] = [] if holders.is_sure else [("which of its tokens were released is a guess",)]
        given = sum(deferred >= 0 for deferred, _ in lock.moves)
        back = len(lock.moves) - given
        counts: Phrase = (f"taken {several(given, 'time', 'times')}, released {several(back, 'time', 'times')}",)
        is_held = "is held" if one.given == 1 else "are held"
        said: Phrase = (f"{one.given} of {several(one.tokens, 'token', 'tokens')} of {lock.name} {is_held}",)
        lost = next((held for held in holders.held if self._is_lost(held)), None)
        if lost is None or lost.body is None:
            details = details_of(self.thing_made_at(lock.name), [counts], [self._holds(held) for held in holders.held[:_MOST_HELD]], guess, waiting)
            return Finding(Severity.LEFT, Kind.TOKEN, said, details, first.row if first is not None else lock.row)
        severity = Severity.BAD if waiting or self._failed(lost.body) else Severity.LEFT
        rest = [self._holds(held) for held in holders.held if held is not lost]
        details = details_of([self._ended(lost.body)], self.thing_made_at(lock.name), rest[:_MOST_HELD], guess, [(*said, ": ", *counts)], waiting)
        taken = words(*self.body(lost.body), f" took a token of {lock.name}", *self._at(lost.deferred), " and never released it")
        return Finding(severity, Kind.HELD, taken, details, lost.row)

    def _is_lost(self, held: Held) -> bool:
        """Whether the body that has a token ended without releasing it, and nothing that it made of the token goes on."""
        token = self._fold.records[held.deferred]
        return held.body is not None and self._fold.records[held.body].fired is not None and not token.is_stuck

    def _failed(self, body: int) -> bool:
        return end_of(self._fold, self._fold.records[body]) == FAIL

    def _at(self, number: int) -> Phrase:
        """Where in the program a Deferred was made, as the end of a sentence, if that is known."""
        place = self.place_of(self._fold.records[number])
        return words(" at ", OfPlace(place)) if place is not None else words()

    def place_of(self, record: Record) -> Optional[Place]:
        """The line of the program that counts where a Deferred was made: that of the caller, if several have called the line that made it."""
        site = self.sites.of.get(record.number)
        return site.place if site is not None else None

    def body(self, number: int) -> Phrase:
        """An inline body by what it was called with, if that is known, and by its Deferred."""
        call = self._places.call_of(self._fold.records[number].names)
        return words(OfScript(call), " (", OfDeferred(number), ")") if call else words(OfDeferred(number))

    def called(self, record: Record) -> List[Phrase]:
        """What the inline body of a Deferred was called with, if that is known."""
        call = self._places.call_of(record.names)
        return [("called as ", OfScript(call))] if call else []

    def thing_made_at(self, name: str) -> List[Phrase]:
        """What a lock or a queue is bound to in the program, and where it was made, as far as that is known."""
        place = self._places.of_thing(name)
        if place is None:
            return []
        bound = self._places.bound_at(place)
        said = words(f"{name} is ", OfScript(bound), ", made at ") if bound else words(f"{name} was made at ")
        return [(*said, OfPlace(place))]

    def made_at(self, record: Record) -> List[Phrase]:
        """Where in the program a Deferred was made, in which function, and what has called that, as far as it is known."""
        site = self.sites.of.get(record.number)
        if site is None:
            return []
        stack = self._places.stack_of(record.names)
        said = words("made at ", OfPlace(site.place))
        if site.by is not None:
            said += (" in ", OfScript(site.function), ", by ", OfScript(site.by.function), " at ", OfPlace(site.by.place))
        elif site.caller is not None:
            said += (", called at ", OfPlace(site.caller.place), " in ", OfScript(site.caller.function))
        if len(stack) > 1:
            said += (", begun at ", OfPlace(stack[1][0].place), " in ", OfScript(stack[1][0].function))
        return [said]

    def awaits_at(self, body: Record) -> Phrase:
        """The line of the program in which a body awaited last, as the end of a sentence, if that is known."""
        return self._stands_at(body.awaits_at) if body.awaits_at is not None else words()

    def _made(self, number: int) -> Phrase:
        """Where a Deferred was made, between commas."""
        at = self._at(number)
        return words(", made", *at, ",") if at else words()

    def _ended(self, body: int) -> Phrase:
        """How a body ended, and in which line."""
        record = self._fold.records[body]
        if record.fired is None:
            return ()
        outcome = self._fold.rows[record.fired].entry.outcome
        text = outcome.text.removeprefix("fail ").removeprefix("ok ") if outcome is not None else ""
        how = "failed with " if self._failed(body) else "returned "
        return ("its body ", how, OfScript(text), " in ", OfLine(record.fired))

    def _holds(self, held: Held) -> Phrase:
        """Who holds a token, since when, and what for."""
        token = self._fold.records[held.deferred]
        since = words(" since ", OfLine(held.row), *self._at(held.deferred))
        if token.waits is not None:
            return ("held for ", OfDeferred(held.deferred), *since, ", which waits for ", OfDeferred(token.waits))
        if held.body is None:
            by = in_whom(self._fold.said_by(self._fold.rows[held.row].actor))
            return ("held for ", OfDeferred(held.deferred), *since, *by)
        body = self._fold.records[held.body]
        if body.fired is None and body.awaits is not None:
            return ("held by ", *self.body(held.body), *since, ", whose body awaits ", OfDeferred(body.awaits), *self.awaits_at(body))
        return ("held by ", *self.body(held.body), *since)

    # Deferreds among those of their line

    def among(self, record: Record) -> List[Phrase]:
        """How the others were of the line that made a Deferred, if that one is odd among them."""
        site = self.sites.of.get(record.number)
        return [(self._others(site.among),)] if site is not None and record.number in self.sites.odd else []

    def others_fired(self, record: Record) -> List[Phrase]:
        """Which lines of the program fired the others of the line that made an odd Deferred: what should have fired that one may stand there."""
        if record.number not in self.sites.odd:
            return []
        others = [one for one in self.sites.of[record.number].among.records if one.fired is not None and one.cancelled is None]
        places = Counter(place for one in others for place in [self._row_places.of(self._fold.rows[one.fired or 0])] if place is not None)
        said = [part for place, count in places.most_common(_MOST_HELD) for part in words(", ", OfPlace(place), f" ({count})")]
        return [words("the others were fired at ", *said[1:])] if said else []

    def _others(self, site: Site) -> str:
        median = said_of(site.median, self._tick)
        return f"{len(site.records)} were made there: {site.said}; half were unfired for at most {median}"

    def odd(self, told: Set[int]) -> List[Finding]:
        """The Deferreds that were cancelled, and are odd among those of their line; without those that other rows tell of."""
        return [
            self._odd(self._fold.records[number], site)
            for site in self.sites.all
            for number in site.odd
            if number not in told and self._fold.records[number].cancelled is not None
        ]

    def _odd(self, record: Record, site: Site) -> Finding:
        said = words(OfDeferred(record.number), f" was unfired for {said_of(self.sites.unfired(record), self._tick)}, and then cancelled")
        cancelled = words(*self.cancelled_in(record.cancelled or 0), *in_whom(self._fold.said_by(self._fold.rows[record.cancelled or 0].actor)))
        guess = words("a guess, since ", self._others(site.among))
        details = details_of(self.made_at(record), [guess], self.others_fired(record), self._waiters(record), self.again(record), [cancelled])
        return Finding(Severity.LIKELY, Kind.ODD, said, details, record.row)

    def cancelled_in(self, row: int) -> Phrase:
        """In which line a Deferred was cancelled, and which line of the program did it, if that is known."""
        return ("it was cancelled in ", OfLine(row), *self._stands_at(row))

    def _stands_at(self, row: int) -> Phrase:
        """The line of the program that a row tells of, as the end of a sentence, if that is known."""
        place = self._row_places.of(self._fold.rows[row])
        return words(" at ", OfPlace(place)) if place is not None else words()

    def _waiters(self, record: Record) -> List[Phrase]:
        """The bodies that awaited a Deferred last."""
        numbers = self._awaiting.get(record.number, [])
        return [self._waiter(self._fold.records[number]) for number in numbers[:_MOST_HELD]]

    def _waiter(self, body: Record) -> Phrase:
        return ("the inline body of ", *self.body(body.number), *self._made(body.number), " awaited it", *self.awaits_at(body))

    def again(self, record: Record) -> List[Phrase]:
        """What the body that made a cancelled Deferred made at the same line after the cancel: a retry, it seems."""
        cancel, site, body = record.cancelled, self.sites.line_of.get(record.number), self._bodies.acting.get(record.row)
        if site is None or body is None or cancel is None:
            return []
        after = [one for one in self._made_by[site.place, body] if one.row > cancel]
        return [("after that the body of ", *self.body(body), " made another there: ", OfDeferred(one.number), *self._got(one)) for one in after[:1]]

    def _for(self, job: Record) -> Phrase:
        """What the result of a job was, and of which body, as far as these are known."""
        outcome, body = self._fold.rows[job.fired or 0].entry.outcome, self._bodies.acting.get(job.row)
        result = words(": ", OfScript(outcome.text)) if outcome is not None else words()
        return words(*result, *(words(" for ", *self.body(body)) if body is not None else ()))

    def _got(self, record: Record) -> Phrase:
        """What a Deferred was fired with, as the end of a sentence."""
        outcome = self._fold.rows[record.fired].entry.outcome if record.fired is not None else None
        return words(", fired with ", OfScript(outcome.text)) if outcome is not None else words()

    # bodies that went on

    def went_on(self) -> List[Finding]:
        """The bodies that went on after a cancel."""
        return list(map(self._went_on, went_on(self._fold)))

    def _went_on(self, one: WentOn) -> Finding:
        body, rows = one.body, self._fold.rows
        by = in_whom(self._fold.said_by(rows[one.cancel].actor))
        said = words(*self.body(body.number), *self._made(body.number), " went on after it was cancelled")
        awaited = rows[one.awaited[0]].entry.other
        next_one = words("then its body awaited ", OfDeferred(awaited), *self._stands_at(one.awaited[0]), " in ", OfLine(one.awaited[0]))
        more = [(several(len(one.awaited) - 1, "more await followed", "more awaits followed"),)] if len(one.awaited) > 1 else []
        cancelled = words(*self.cancelled_in(one.cancel), *by)
        guess = words("a guess: it may only clean up")
        return Finding(Severity.LIKELY, Kind.WENT_ON, said, details_of([cancelled, next_one], more, [self._ended(body.number), guess]), one.awaited[0])

    # values that weren't put back, and Deferreds that weren't returned

    def kept(self, left: Sequence[LeftGetters]) -> List[Finding]:
        """The pools whose values weren't put back, where others wait for one."""
        queues = [queue for queue in (self._fold.world.queues.at(one.number) for one in left) if queue is not None]
        found = [(queue, pool_of(self._fold, self._bodies, queue)) for queue in queues]
        return [self._kept(queue, pool) for queue, pool in found if pool is not None and pool.lost]

    def is_pool(self, queue: Queue) -> bool:
        """Whether who gets a value of a queue puts it back."""
        return pool_of(self._fold, self._bodies, queue) is not None

    def _kept(self, queue: Queue, pool: Pool) -> Finding:
        first, back = pool.lost[0], pool.back[0]
        said = words(*self._got_value(first, queue), " and didn't put it back")
        others: List[Phrase] = [("nor did ", *self.body(one.body), " ", OfScript(one.value)) for one in pool.lost[1:_MOST_HELD]]
        count = several(len(pool.back), "other value that was got was put back", "other values that were got were put back")
        guess = words(f"a guess, since {count}: as by ", *self.body(back.body), *self._stands_at(back.back or 0))
        details = details_of([self._ended(first.body)], self.thing_made_at(queue.name), others, [guess])
        return Finding(Severity.LIKELY, Kind.KEPT, said, details, self._fold.records[first.deferred].fired)

    def _got_value(self, got: Got, queue: Queue) -> Phrase:
        """Who got which value of a queue, and where."""
        return words(*self.body(got.body), " got ", OfScript(got.value), f" from {queue.name}", *self._at(got.deferred))

    def getters(self, queue: Queue) -> List[Phrase]:
        """The bodies that got the values of a queue, where these are few."""
        if not self.is_recorded:
            return []
        found = getters(self._fold, self._bodies, queue)
        if len(found) > _MOST_HELD:
            return []
        return [words(*self.body(body), *self._made(body), f" got {several(len(got), 'value', 'values')} of it", *self._stopped(body, got[-1])) for body, got in found.items()]

    def _stopped(self, body: int, last: str) -> Phrase:
        """After which value of a queue a body ended, if it has: a worker may end by a value."""
        fired = self._fold.records[body].fired
        return words(", and ended in ", OfLine(fired), ", after the last one: ", OfScript(last)) if fired is not None else words()

    def not_returned(self) -> List[Finding]:
        """The Deferreds that callbacks didn't return, a row for each line of the program."""
        if not self._places:
            return []
        lines: Dict[Optional[Place], List[NotReturned]] = {}
        for one in not_returned(self._fold, self._bodies):
            lines.setdefault(self.place_of(one.record), []).append(one)
        return [self._not_returned(line[0], len(line) - 1) for place, line in lines.items() if place is not None]

    def _not_returned(self, one: NotReturned, others: int) -> Finding:
        record = one.record
        ticks = self._fold.rows[record.fired or 0].time - self._fold.rows[one.next].time
        said = words("a callback of ", OfDeferred(one.chain), " made ", OfDeferred(record.number), *self._at(record.number), ", and didn't return it")
        begun = [frames[0] for frames in self._places.stack_of(record.names)[1:2]]
        added = [words("that callback was added at ", OfPlace(frame.place), " in ", OfScript(frame.function)) for frame in begun]
        too_soon = f"{said_of(ticks, self._tick)} before that was fired" if record.fired is not None else "and that is unfired"
        later = words("the next one ran in ", OfLine(one.next), f", {too_soon}")
        outcome = self._fold.rows[record.fired].entry.outcome if record.fired is not None else None
        nobody = words("nobody got what it was fired with: ", OfScript(outcome.text)) if outcome is not None else words("nobody waits for it")
        more = [(f"{several(others, 'other of this line was', 'others of this line were')} not returned, too",)] if others else []
        guess = words("a guess: it may be meant to go on by itself")
        return Finding(Severity.LIKELY, Kind.NOT_RETURNED, said, details_of(added, [later, nobody], more, [guess]), record.row)

    # results that came late

    def overtaken(self) -> List[Finding]:
        """The jobs whose results came after those of what began later, a row for each line of the program."""
        return list(map(self._overtaken, overtaken(self.sites)))

    def _overtaken(self, one: Overtaken) -> Finding:
        late, first = one.late, one.first
        said = words("the result of the job of ", OfDeferred(late.number), " came after that of ", OfDeferred(first.number), ", which began later")
        made = words("both began at ", OfPlace(one.site.place), ", in ", OfLine(late.row), " and ", OfLine(first.row))
        came = words("they came in ", OfLine(late.fired or 0), *self._for(late), " and ", OfLine(first.fired or 0), *self._for(first))
        others = [(f"{several(one.others, 'other job', 'other jobs')} of this line came late, too",)] if one.others else []
        guess = words("a guess: it isn't known whether the order matters")
        return Finding(Severity.NOTE, Kind.OVERTAKEN, said, details_of([made, came], others, [guess]), late.fired)
