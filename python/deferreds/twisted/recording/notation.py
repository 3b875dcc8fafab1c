"""The words of a run's notes, each a number: what writes them and what reads them have these in common.

A segment begins with how many objects of each kind it has first, in the order of `KINDS`. What follows are notes. Each is its word and what
belongs to that: plain items, whose number is known, and parts. A part is a text, True, False, None or a float as it is, or else a number:
its last five bits say of what kind it is, and the others which object, or how many items of it follow.
"""

from __future__ import annotations

import enum

#: what the first segment begins with, and the version of the notes
MAGIC, VERSION = "deferreds notes", 3

#: how many bits say of what kind a part is
BITS = 5
MASK = (1 << BITS) - 1

#: the number in the place of an object, if there is none
NONE = -1


class Kind(enum.IntEnum):
    """Objects that have numbers, from 0 on in the order in which they come."""

    BODY = 0
    STEPS = 1
    RUN = 2
    RECORD = 3
    THING = 4
    ENTRY = 5
    LOOP = 6
    COOPERATING = 7
    INNER = 8
    CALL = 9
    TURN = 10


KINDS = tuple(Kind)


class Tag(enum.IntEnum):
    """The kinds of parts."""

    #: the integer itself
    INTEGER = 0
    #: an object by its number
    RECORD = 1
    THING = 2
    ACTION = 3
    BODY = 4
    STEPS = 5
    RUN = 6
    TURN = 7
    CALL = 8
    FAILED = 9
    ENDED = 10
    CANCELLED = 11
    #: a time that the segment has first, before its seconds, and one by its place among those
    NEW_TIME = 12
    TIME = 13
    #: a number of items, or of pairs, which follow
    LIST = 14
    DICT = 15
    #: what a part of a line weighs, before its text; and a value
    TEXT = 16
    OUTCOME = 17
    VALUE = 18
    #: three texts follow
    UNSAYABLE = 19
    #: the number of a Cooperator, before two texts
    WORD = 20
    #: a numerator, before a denominator
    FRACTION = 21
    #: an action that has this place among all, before what it has
    NEW_ACTION = 22


class Word(enum.IntEnum):
    """The notes."""

    BODIES = 0
    STEPS = 1
    THINGS = 2
    RECORDS = 3
    EVENT = 4
    RUN = 5
    RUN_GOES_ON = 6
    STEPS_GO_ON = 7
    RESULT = 8
    PACE = 9
    WAITING = 10
    STEP = 11
    STEP_GOES_ON = 12
    MOVED = 13
    COOPERATORS = 14
    COOPERATING = 15
    UNNAMED = 16
    PROBLEM = 17
    QUIRK = 18
    QUIRK_OF = 19
    INNER = 20
    USED_IN = 21
    QUIRK_AS_SUCH = 22
    QUIRK_OTHERWISE = 23
    CALL = 24
    CALL_IS_OVER = 25
    SIDE = 26
    TURN = 27
    TURN_GOES_ON = 28
    ERROR = 29
    PARTS = 30
    FAILED = 31
    SPOT = 32
    FURTHER_CLOCK = 33
    CLASS = 34
    POOL = 35
    SECRET = 36
    FACTS = 37
    END = 38
    LOOP = 39
    OTHER_THING = 40
    #: the callers of the spot before it, and of a Deferred where it was made
    CALLERS = 41
    MADE_BY = 42
    #: a code that has no other note yet
    CODE = 43
    #: what the inline body of an action was called with
    CALLED = 44
    #: where a lock or a queue was made
    THING_MADE = 45


class Has(enum.IntFlag):
    """What an action has beside its items."""

    RAISED = 1
    CAUGHT = 2
    AT = 4
    CAME = 8
    RAISES = 16
    INNER = 32
    ADVANCE = 64
