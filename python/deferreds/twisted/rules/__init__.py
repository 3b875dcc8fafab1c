"""What `deferreds` does at an entry of docs/TWISTED.md, put in the place of what Twisted does there.

With these rules a run goes on behind the entry as that of `deferreds` does, and everything else in it is Twisted's.
"""

from __future__ import annotations

import contextlib
from typing import AbstractSet, Callable, ContextManager, Dict, FrozenSet, Iterator

from ..profile import Entry
from . import bodies, chains, clocks, cooperators, deferreds, loops

_Rule = Callable[[], ContextManager[None]]

#: the rules that stand alone, in the order in which they are put
_ALONE: Dict[Entry, _Rule] = {
    Entry.UNPAUSE_AT_ZERO: deferreds.unpausing,
    Entry.CANCEL_OF_A_FIRED_LIST: deferreds.cancelling_lists,
    Entry.CIRCLE_OF_WAITS: deferreds.cancelling_in_circles,
    Entry.GATHER_FIRED_BY_HAND: deferreds.gathering,
    Entry.RESET_ORDER: clocks.ordering,
    Entry.DELAY_BOUNDS: clocks.bounding,
    Entry.LOOP_FIRED_BY_HAND: loops.ending,
}

_PAUSED_GIVES = frozenset({Entry.PAUSED_RECEIVER, Entry.ABANDONED_CHAIN})
_PAUSES = _PAUSED_GIVES | {Entry.PAUSE_IN_OWN_SIDE}
_INLINE = frozenset({Entry.CANCELLED_INLINE, Entry.CANCELLED_RUNNING_INLINE})

#: the entries at which Twisted can do what `deferreds` does. (That an error leaves no advance is for the player to see to.)
RULES: FrozenSet[Entry] = frozenset((*_ALONE, *_PAUSES, *_INLINE, *cooperators.ENTRIES, Entry.ERROR_LEAVES_ADVANCE))


@contextlib.contextmanager
def holding(entries: AbstractSet[Entry]) -> Iterator[None]:
    """Has the rules of these entries hold, but for those of Cooperators, which are classes of their own."""
    with contextlib.ExitStack() as stack:
        if entries & _INLINE:
            inline = bodies.Cancelling(Entry.CANCELLED_INLINE in entries, Entry.CANCELLED_RUNNING_INLINE in entries)
            stack.enter_context(inline.put())
        for entry, rule in _ALONE.items():
            if entry in entries:
                stack.enter_context(rule())
        if entries & _PAUSES:
            stack.enter_context(chains.running(bool(entries & _PAUSED_GIVES), Entry.PAUSE_IN_OWN_SIDE in entries))
        yield
