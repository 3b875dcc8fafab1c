"""The line of the program of each row, as far as it is known: the line that made its Deferred, that of the action that it tells of, or that
in which a body awaits; else the line that has handed to Twisted what acts there.

A row names its Deferred or object, and so do the actions of the script, whose lines are known. If all actions of one word on one name
have the same line, it is the row's. If they don't, those of an inline body are in the order of its rows. What Twisted does by itself has
the line of what began it: a callback that of its `add`, a delayed call that of its `later`, and all in these the same.
"""

from __future__ import annotations

from typing import Dict, List, Optional, Tuple

from .bodies import Bodies
from .fold import Fold
from .places import Place, Places
from .records import Row
from .scripts import Script

#: what an action logs, by its word
_LOGS = {
    "callback": "fire",
    "errback": "fire",
    "chain": "add",
    "cancel": "cancel",
    "pause": "pause",
    "unpause": "unpause",
    "addCallback": "add",
    "addErrback": "add",
    "addBoth": "add",
    "addCallbacks": "add",
    "addTimeout": "add",
    "later": "later",
    "cancelCall": "uncall",
    "resetCall": "reset",
    "delayCall": "reset",
    "lock": "lock",
    "semaphore": "semaphore",
    "queue": "queue",
    "put": "put",
    "release": "release",
    "await": "await",
    "note": "note",
}
#: and what `addTimeout` does, too
_TIMER = "later timeout"
#: rows that stand for the action which makes their Deferred
_MAKE = frozenset({"new", "acquire", "get", "whendone", "loop", "job"})
_FIRINGS = frozenset({"fire", "refuse", "swallow"})
#: what Twisted does by itself after these rows, and not the program
_FOLLOWS = {"add": "await", "cancel": "cancel"}
#: the rows in which something begins that another row has scheduled, by the words of that
_BEGUN = {"call": "later call", "timeout": _TIMER, "turn": "loop", "deliver": "job"}
#: the rows that end the sides of Deferreds
_ENDS = frozenset({"set", "wait"})

#: what is logged, and for which name
_Key = Tuple[str, str]


class RowPlaces:
    """Finds the lines of rows."""

    def __init__(self, fold: Fold, script: Script, places: Places) -> None:
        self._fold = fold
        self._script = script
        self._places = places
        #: by what is logged and for which name, the line; None if there are several
        self._known: Dict[_Key, Optional[Place]] = {}
        #: the same for the actions of each inline body, by its name, all in order
        self._of_bodies: Dict[Tuple[str, str, str], List[Place]] = {}
        #: the lines of rows of inline bodies
        self._in_order: Dict[int, Place] = {}
        #: by rows, the lines; None before they were looked for
        self._found: Optional[List[Optional[Place]]] = None

    def of(self, row: Row) -> Optional[Place]:
        """The line of a row."""
        if not bool(self._places):
            return None
        if self._found is None:
            self._found = self._look(self._script)
        return self._found[row.place]

    def _look(self, script: Script) -> List[Optional[Place]]:
        """Finds the lines of all rows."""
        self._look_through(script)
        self._lay_in_order(script)
        begins = self._begins()
        found: List[Optional[Place]] = []
        for row in self._fold.rows:
            own = self._own(row)
            found.append(own if own is not None else self._begun_at(row, begins, found))
        return found

    # the actions of the script

    def _look_through(self, script: Script) -> None:
        """Finds the lines of the actions of the script."""
        by_twisted: List[str] = []
        around: List[Tuple[str, str]] = []
        for action, pointer in script.actions():
            while around and not pointer.startswith(around[-1][0]):
                around.pop()
            if action[0] == "runWith" and len(action) > 2:
                by_twisted.append(f"{action[2]}")
            self._note(action, self._places.of_action(pointer), around[-1][1] if around and _is_direct(pointer, around[-1][0]) else "")
            if action[0] == "inline" and len(action) > 1:
                around.append((f"{pointer}/2/", f"{action[1]}"))
        for name in by_twisted:
            self._known["release", name] = None

    def _note(self, action: List[object], place: Optional[Place], body: str) -> None:
        """Notes the line of an action, which an inline body runs, if it does."""
        logged = _LOGS.get(f"{action[0]}")
        if logged is None or place is None or len(action) < 2:
            return
        name = f"{action[1]}" if logged != "note" else ""
        for one in [logged, _TIMER] if action[0] == "addTimeout" else [logged]:
            self._known[one, name] = place if self._known.get((one, name), place) == place else None
            if body:
                self._of_bodies.setdefault((body, one, name), []).append(place)

    def _lay_in_order(self, script: Script) -> None:
        """Finds the lines of those rows of inline bodies of which the word and the name don't tell it, if there are as many rows as actions."""
        if not self._of_bodies:
            return
        acting = Bodies(self._fold, script.bodies).acting
        rows: Dict[Tuple[str, str, str], List[int]] = {}
        for row in self._fold.rows:
            body = self._fold.records.get(acting[row.place]) if row.place in acting else None
            for logged, name in self._keys(row) if body is not None else []:
                key = body.name if body is not None else "", logged, name
                if key in self._of_bodies and self._known.get((logged, name)) is None:
                    rows.setdefault(key, []).append(row.place)
        for key, laid in rows.items():
            if len(laid) == len(self._of_bodies[key]):
                for place, line in zip(laid, self._of_bodies[key]):
                    self._in_order[place] = line

    # rows that tell of an action

    def _own(self, row: Row) -> Optional[Place]:
        """The line of the action that a row tells of."""
        record = self._fold.records.get(row.entry.deferred)
        if row.entry.word in _MAKE and record is not None:
            return self._places.of_deferred(record.names)
        if row.place in self._in_order:
            return self._in_order[row.place]
        found = [self._known.get(key) for key in self._keys(row)]
        return next((place for place in found if place is not None), None)

    def _keys(self, row: Row) -> List[_Key]:
        """What is logged in a row, and for which names, if an action of the program may have logged it."""
        word, rows = row.entry.word, self._fold.rows
        if word in _FOLLOWS and row.place > 0 and rows[row.place - 1].entry.word == _FOLLOWS[word]:
            return []
        if word in _FIRINGS and not row.is_plain:
            return []
        record = self._fold.records.get(row.entry.other if word == "await" else row.entry.deferred)
        logged = "fire" if word in _FIRINGS else _TIMER if row.entry.what == "timeout" else word
        return [(logged, name) for name in (record.names if record is not None else [row.entry.name])]

    # rows that Twisted logs by itself

    def _begins(self) -> Dict[int, int]:
        """By the rows of sides, calls, turns and results, the rows that have handed these to Twisted."""
        added: Dict[int, List[int]] = {}
        ran: Dict[int, List[int]] = {}
        scheduled: Dict[_Key, int] = {}
        begun: Dict[int, int] = {}
        for row in self._fold.rows:
            word, number, words = row.entry.word, row.entry.deferred, f"{row.entry.word} {row.entry.what}".rstrip()
            name = row.entry.name or f"{row.entry.number if word in ('job', 'deliver') else number}"
            if word == "add":
                added.setdefault(number, []).append(row.place)
            elif word == "run":
                ran.setdefault(number, []).append(row.place)
            elif word in _ENDS and number in ran:
                begun[row.place] = ran[number][-1]
            elif word in _BEGUN and (_BEGUN[word], name) in scheduled:
                begun[row.place] = scheduled[_BEGUN[word], name]
            scheduled[words, name] = row.place
        for number, places in ran.items():
            if len(places) == len(added.get(number, [])):
                for place, add in zip(places, added[number]):
                    begun[place] = add
        return begun

    def _begun_at(self, row: Row, begins: Dict[int, int], found: List[Optional[Place]]) -> Optional[Place]:
        """The line that has begun what a row tells of: that of the row that handed it to Twisted, of the `await` or the `cancel` before it, of
        the side or the call that it lies in, or of the event."""
        if row.place in begins:
            return found[begins[row.place]]
        if row.place > 0 and (self._is_of_await(row) or self._is_of_cancel(row)):
            return found[row.place - 1]
        if row.inside is not None:
            return found[row.inside]
        return self._places.of_event(row.event) if row.event is not None else None

    def _is_of_await(self, row: Row) -> bool:
        """Whether a row is the `add` of the `await` before it."""
        return row.entry.word == "add" and self._fold.rows[row.place - 1].entry.word == "await"

    def _is_of_cancel(self, row: Row) -> bool:
        """Whether a row is what the `cancel` before it does: it cancels another Deferred, or fires one."""
        before = self._fold.rows[row.place - 1]
        fired = self._fold.records[before.entry.deferred].fired if before.entry.word == "cancel" else before.place
        return (row.entry.word == "cancel" or row.entry.word in _FIRINGS) and (fired is None or fired > before.place)


def _is_direct(pointer: str, around: str) -> bool:
    """Whether the action of a JSON Pointer is one of the inline body whose statements begin so, and not of a callback in it."""
    return "/do/" not in f"/{pointer.removeprefix(around)}"
